//! Rooms of kept replies: empty, sound and crowded ones, and trampled ones.

use reference::room::{Lent, KEPT_BYTES, MID_BYTES, ROOM_BYTES, ROOM_WORDS, SLOTS, SLOT_BYTES};

use crate::numbers::Numbers;

/// A room's words and bytes, of any number.
#[derive(Clone, PartialEq, Eq)]
pub struct Room {
    pub words: Vec<u32>,
    pub bytes: Vec<u8>,
}

/// A kept reply: the sender's mId, the identifier, the reply.
pub type Kept = (Vec<u8>, u32, Vec<u8>);

impl Room {
    pub fn empty() -> Self {
        Room {
            words: vec![0; ROOM_WORDS],
            bytes: vec![0; ROOM_BYTES],
        }
    }

    /// A copy of a lent one.
    pub fn of(lent: &Lent) -> Self {
        Room {
            words: lent.words.to_vec(),
            bytes: lent.bytes.to_vec(),
        }
    }

    pub fn lent(&mut self) -> Lent<'_> {
        Lent {
            words: &mut self.words,
            bytes: &mut self.bytes,
        }
    }

    /// Writes it into a lent one of the same sizes.
    pub fn put(&self, lent: &mut Lent) {
        lent.words.copy_from_slice(&self.words);
        lent.bytes.copy_from_slice(&self.bytes);
    }

    /// The slots that hold a reply, the oldest first, as far as they are such.
    pub fn held(&self) -> Vec<usize> {
        let row = self.words.iter().take(SLOTS).map(|&slot| slot as usize);
        row.take_while(|slot| (1..=SLOTS).contains(slot)).collect()
    }

    /// The kept replies, the oldest first; none of a room of another size.
    pub fn kept(&self) -> Vec<Kept> {
        if self.words.len() != ROOM_WORDS || self.bytes.len() != ROOM_BYTES {
            return Vec::new();
        }
        let held = self.held().into_iter();
        held.map(|slot| {
            let bytes = &self.bytes[SLOT_BYTES * (slot - 1)..][..SLOT_BYTES];
            let [id, sender, reply] = [15, 31, 47].map(|part| self.words[part + slot]);
            let sender = &bytes[..MID_BYTES.min(sender as usize)];
            let reply = &bytes[MID_BYTES..][..KEPT_BYTES.min(reply as usize)];
            (sender.to_vec(), id, reply.to_vec())
        })
        .collect()
    }

    /// The kept replies whatever their age.
    pub fn kept_set(&self) -> Vec<Kept> {
        let mut kept = self.kept();
        kept.sort_unstable();
        kept
    }

    /// Sets what a slot holds; the bytes past the lengths stay.
    pub fn set(&mut self, slot: usize, sender: &[u8], id: u32, reply: &[u8]) {
        self.words[15 + slot] = id;
        self.words[31 + slot] = sender.len() as u32;
        self.words[47 + slot] = reply.len() as u32;
        let bytes = &mut self.bytes[SLOT_BYTES * (slot - 1)..];
        bytes[..sender.len()].copy_from_slice(sender);
        bytes[MID_BYTES..][..reply.len()].copy_from_slice(reply);
    }

    /// Sets the row of the slots that hold a reply.
    pub fn set_held(&mut self, held: &[usize]) {
        self.words[..SLOTS].fill(0);
        for (word, &slot) in self.words.iter_mut().zip(held) {
            *word = slot as u32;
        }
    }
}

/// Identifiers of kept replies: such as messages have, and those at the limits.
fn id(numbers: &mut Numbers) -> u32 {
    match numbers.under(16) {
        0 => numbers.pick(&[0, 1, u32::MAX - 1, u32::MAX]),
        1 => numbers.word() as u32,
        2..=5 => numbers.within(1..=999) as u32,
        _ => numbers.within(1..=40) as u32,
    }
}

fn sender(numbers: &mut Numbers) -> Vec<u8> {
    match numbers.under(16) {
        0..=8 => b"[10.0.0.1]".to_vec(),
        9 => b"[10.0.0.2]".to_vec(),
        10 => b"gw/A".to_vec(),
        11 => b"gw/a".to_vec(),
        12 => [b"<", &[b'g'; 64][..], b">:65535"].concat(),
        13 => b"[10.0.0.1]:0".to_vec(),
        // No mId; it is kept all the same.
        14 => vec![0xEE; numbers.within(0..=MID_BYTES)],
        _ => b"[10.0.0".to_vec(),
    }
}

fn reply(numbers: &mut Numbers, id: u32) -> Vec<u8> {
    match numbers.under(12) {
        0 => vec![b'r'; numbers.pick(&[0, 1, KEPT_BYTES - 1, KEPT_BYTES])],
        1 => vec![0xEE; numbers.within(0..=KEPT_BYTES)],
        2 => format!("P={id}{{ER=533{{}}}}").into_bytes(),
        _ => format!("P={id}{{C=1{{A=L/1/1,A=R/1}}}}").into_bytes(),
    }
}

/// A sound room with so many replies, in slots of any order for the most part.
pub fn holding(numbers: &mut Numbers, count: usize) -> Room {
    let mut room = Room::empty();
    if numbers.one_in(2) {
        // What a free slot has is not judged.
        room.bytes.fill(numbers.pick(&[0xEE, b'1', 0xFF]));
        let word = numbers.word() as u32;
        room.words[SLOTS..].fill(numbers.pick(&[1, 17, u32::MAX, word]));
    }
    let mut slots: Vec<usize> = (1..=SLOTS).collect();
    if !numbers.one_in(3) {
        for place in (1..SLOTS).rev() {
            slots.swap(place, numbers.under(place + 1));
        }
    }
    slots.truncate(count);
    let mut pairs: Vec<(Vec<u8>, u32)> = Vec::new();
    for &slot in &slots {
        let pair = loop {
            let pair = (sender(numbers), id(numbers));
            if !pairs.contains(&pair) {
                break pair;
            }
        };
        let reply = reply(numbers, pair.1);
        room.set(slot, &pair.0, pair.1, &reply);
        pairs.push(pair);
    }
    room.set_held(&slots);
    room
}

/// A sound room: empty, with a few replies, or crowded.
pub fn sound(numbers: &mut Numbers) -> Room {
    let count = numbers.pick(&[0, 1, 2, 4, 8, 14, 15, 16, 16, 16, 16]);
    holding(numbers, count)
}

/// A room with one sentence of soundness broken, or just not broken.
pub fn trampled(numbers: &mut Numbers) -> Room {
    let count = numbers.pick(&[2, 3, 8, 15, 16, 16]);
    let mut room = holding(numbers, count);
    let held = room.held();
    let slot = numbers.pick(&held);
    let other = numbers.pick(&held[..held.len() - 1]);
    let other = if other == slot {
        held[held.len() - 1]
    } else {
        other
    };
    let place = numbers.under(SLOTS);
    match numbers.under(14) {
        // "room of the wrong size"
        0 => {
            let length = numbers.pick(&[0, 1, ROOM_WORDS - 1, ROOM_WORDS + 1, 2 * ROOM_WORDS]);
            room.words.resize(length, 0);
        }
        1 => {
            let length = numbers.pick(&[0, 1, ROOM_BYTES - 1, ROOM_BYTES + 1, ROOM_BYTES + 2_120]);
            room.bytes.resize(length, 0);
        }
        // "a kept reply over 2,048 bytes or its mId over 72"; of a free slot, not
        2 | 3 => room.words[47 + slot] = numbers.pick(&[2_048, 2_049, 2_049, 1 << 16, u32::MAX]),
        4 | 5 => room.words[31 + slot] = numbers.pick(&[72, 73, 73, 1 << 8, 1 << 31]),
        6 => {
            let free = (1..=SLOTS).find(|slot| !held.contains(slot));
            room.words[47 + free.unwrap_or(slot)] = 2_049;
        }
        // "a pair kept twice", or nearly
        7..=9 => {
            let (mut sender, id, _) =
                room.kept()[held.iter().position(|&one| one == slot).unwrap()].clone();
            let id = match numbers.under(5) {
                0 => id ^ 1 << numbers.under(32),
                1 if !sender.is_empty() => {
                    let last = sender.len() - 1;
                    sender[last] ^= 0x20;
                    id
                }
                2 if sender.len() < MID_BYTES => {
                    sender.push(b'1');
                    id
                }
                _ => id,
            };
            room.set(other, &sender, id, b"P=1{}");
        }
        // "ages that give no order"
        10 => room.words[place] = numbers.pick(&[17, 18, 32, 1 << 31, u32::MAX]),
        11 => room.words[place] = 0,
        12 => room.words[place] = slot as u32,
        // Another order.
        _ => room.words[..held.len()].reverse(),
    }
    room
}

/// What a room holds, for a report.
pub fn shown(room: &Room) -> String {
    let row: Vec<String> = room.words.iter().take(SLOTS).map(u32::to_string).collect();
    let mut text = format!(
        "{} words, {} bytes, row {}",
        room.words.len(),
        room.bytes.len(),
        row.join(" ")
    );
    for (sender, id, reply) in room.kept() {
        let start = &reply[..reply.len().min(60)];
        text += &format!(
            "\n          {} {id}: {} bytes {}",
            sender.escape_ascii(),
            reply.len(),
            start.escape_ascii()
        );
    }
    text
}
