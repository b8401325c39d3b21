//! The lent room of kept replies (document 02, request 3): 16 slots, numbered
//! from 1 on, in 64 words and 33,920 bytes.
//!
//! Words 0..15 are the slots that hold a reply, the oldest first, then zeros.
//! Words 15 + n, 31 + n and 47 + n are the identifier, the length of the
//! sender's mId and that of the reply of slot n. Its bytes stand from 2,120 x
//! (n - 1) on: 72 for the mId, then 2,048 for the reply. What a slot that holds
//! none has, and the bytes past a length, stay until they are used.

use std::ops::RangeInclusive;

/// "Keep the last 16 replies"
pub const SLOTS: usize = 16;
/// "its mId over 72"
pub const MID_BYTES: usize = 72;
/// "each up to 2,048 bytes"
pub const KEPT_BYTES: usize = 2_048;
/// The bytes of a slot.
pub const SLOT_BYTES: usize = MID_BYTES + KEPT_BYTES;
/// The words of a room.
pub const ROOM_WORDS: usize = 4 * SLOTS;
/// The bytes of a room.
pub const ROOM_BYTES: usize = SLOTS * SLOT_BYTES;

/// What a caller lends, of any sizes.
pub struct Lent<'r> {
    pub words: &'r mut [u32],
    pub bytes: &'r mut [u8],
}

/// A sound room.
pub struct Room<'r> {
    words: &'r mut [u32],
    bytes: &'r mut [u8],
}

impl<'r> Room<'r> {
    /// None for "room of the wrong size, a kept reply over 2,048 bytes or its mId
    /// over 72, a pair kept twice or ages that give no order".
    pub fn sound(lent: &'r mut Lent) -> Option<Self> {
        if lent.words.len() != ROOM_WORDS || lent.bytes.len() != ROOM_BYTES {
            return None;
        }
        let room = Room {
            words: &mut *lent.words,
            bytes: &mut *lent.bytes,
        };
        (room.is_in_order() && room.fits() && room.is_kept_once()).then_some(room)
    }

    /// Whether different slots stand first among the ages, and then zeros alone.
    fn is_in_order(&self) -> bool {
        let held = self.held();
        self.words[held.len()..SLOTS].iter().all(|&slot| slot == 0)
            && held.iter().all(|slot| (1..=SLOTS).contains(slot))
            && (1..held.len()).all(|place| !held[..place].contains(&held[place]))
    }

    fn fits(&self) -> bool {
        self.held().iter().all(|slot| {
            self.words[31 + slot] as usize <= MID_BYTES
                && self.words[47 + slot] as usize <= KEPT_BYTES
        })
    }

    fn is_kept_once(&self) -> bool {
        let held = self.held();
        let pairs: Vec<_> = held.iter().map(|&slot| self.pair(slot)).collect();
        (1..pairs.len()).all(|place| !pairs[..place].contains(&pairs[place]))
    }

    /// The slots that hold a reply, the oldest first.
    fn held(&self) -> Vec<usize> {
        let ages = self.words[..SLOTS].iter().map(|&slot| slot as usize);
        ages.take_while(|&slot| slot != 0).collect()
    }

    /// "the sender's mId bytes and the identifier"
    fn pair(&self, slot: usize) -> (&[u8], u32) {
        let length = self.words[31 + slot] as usize;
        (
            &self.bytes[SLOT_BYTES * (slot - 1)..][..length],
            self.words[15 + slot],
        )
    }

    fn reply(&self, slot: usize) -> &[u8] {
        let length = self.words[47 + slot] as usize;
        &self.bytes[SLOT_BYTES * (slot - 1) + MID_BYTES..][..length]
    }

    /// The reply kept for this sender's identifier.
    pub fn kept(&self, sender: &[u8], id: u32) -> Option<&[u8]> {
        let held = self.held();
        let slot = held.iter().find(|&&slot| self.pair(slot) == (sender, id));
        slot.map(|&slot| self.reply(slot))
    }

    /// Keeps the reply of a transaction that ran. "Room freed is used for the next
    /// reply; only with 16 held does the oldest go."
    pub fn keep(&mut self, sender: &[u8], id: u32, reply: &[u8]) {
        let mut held = self.held();
        if held.len() == SLOTS {
            held.remove(0);
        }
        let free = (1..=SLOTS).find(|slot| !held.contains(slot));
        let slot = free.expect("15 are held at most");
        held.push(slot);
        self.set_held(&held);
        self.words[15 + slot] = id;
        self.words[31 + slot] = sender.len() as u32;
        self.words[47 + slot] = reply.len() as u32;
        let bytes = &mut self.bytes[SLOT_BYTES * (slot - 1)..];
        bytes[..sender.len()].copy_from_slice(sender);
        bytes[MID_BYTES..][..reply.len()].copy_from_slice(reply);
    }

    /// "K with identifiers and ranges drops that sender's replies"
    pub fn drop_acknowledged(&mut self, sender: &[u8], ids: &RangeInclusive<u32>) {
        let mut held = self.held();
        held.retain(|&slot| {
            let (of, id) = self.pair(slot);
            of != sender || !ids.contains(&id)
        });
        self.set_held(&held);
    }

    fn set_held(&mut self, held: &[usize]) {
        self.words[..SLOTS].fill(0);
        for (word, &slot) in self.words.iter_mut().zip(held) {
            *word = slot as u32;
        }
    }
}
