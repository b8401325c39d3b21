//! Whole calls, and how two sides answer them.

use std::collections::{BTreeMap, VecDeque};
use std::fmt;

use reference::room::{Lent, SLOTS};
use reference::table::{Lines, CONTEXTS, EPHEMERALS};
use reference::text::read;
use reference::{Answer, MESSAGE_BYTES, REPLY_BYTES};

use crate::messages::{Scope, Writer};
use crate::numbers::Numbers;
use crate::rooms::{self, Room};
use crate::{damage, limits, speech, tables};

/// A side: count of lines, message, table, room, blocks, own mId, reply buffer; the
/// result as C has it.
pub type Call = fn(u32, &[u8], &mut [u32], &mut Lent, &mut [u32], &[u8], &mut [u8]) -> u64;

/// The side of the archive.
pub fn archive_word(
    lines: u32,
    message: &[u8],
    table: &mut [u32],
    room: &mut Lent,
    blocks: &mut [u32],
    own: &[u8],
    reply: &mut [u8],
) -> u64 {
    let (words, bytes) = (&mut *room.words, &mut *room.bytes);
    cordafina::answer_word(lines, message, table, words, bytes, blocks, own, reply)
}

/// The side of the reference.
pub fn reference_word(
    lines: u32,
    message: &[u8],
    table: &mut [u32],
    room: &mut Lent,
    blocks: &mut [u32],
    own: &[u8],
    reply: &mut [u8],
) -> u64 {
    let answer = reference::answer(lines, message, table, room, blocks, own, reply);
    let length = match answer {
        Answer::Taken(length) => length as u64,
        _ => 0,
    };
    u64::from(answer.number()) << 32 | length
}

/// One call.
#[derive(Clone)]
pub struct Case {
    /// The count of lines given.
    pub lines: u32,
    pub message: Box<[u8]>,
    pub table: Vec<u32>,
    pub room: Room,
    pub blocks: Vec<u32>,
    pub own: Box<[u8]>,
    /// The reply buffer's length.
    pub reply: usize,
}

/// Calls from a seed. Many start from the table and the room that the call before
/// left, and some send again what was sent before.
pub struct Cases {
    numbers: Numbers,
    left: Vec<u32>,
    room: Room,
    sent: VecDeque<Box<[u8]>>,
}

/// So many messages are remembered, to be sent again: more than replies are kept.
const REMEMBERED: usize = 24;

impl Cases {
    pub fn new(seed: u64) -> Self {
        Cases {
            numbers: Numbers::new(seed),
            left: tables::fresh(Lines::EIGHT),
            room: Room::empty(),
            sent: VecDeque::new(),
        }
    }

    /// Takes the table and the room that the last case left.
    pub fn left(&mut self, outcome: &Outcome) {
        if tables::lines_of(outcome.table().len()).is_some() {
            self.left = outcome.table().to_vec();
        }
        // One that was turned down would be so again.
        if outcome.refusal() == 0 {
            self.room = outcome.room();
        }
    }

    pub fn draw(&mut self) -> Case {
        let numbers = &mut self.numbers;
        let kind = numbers.under(32);
        let lines = match tables::lines_of(self.left.len()) {
            Some(lines) if kind <= 13 => lines,
            _ => tables::lines(numbers),
        };
        let table = match kind {
            0..=13 => self.left.clone(),
            14..=16 => tables::fresh(lines),
            17..=28 => tables::sound(numbers, lines),
            29 => tables::lowest(numbers, lines),
            _ => tables::damaged(numbers, lines),
        };
        let room = match numbers.under(20) {
            0..=11 => self.room.clone(),
            12 | 13 => Room::empty(),
            14..=18 => rooms::sound(numbers),
            _ => rooms::trampled(numbers),
        };
        let again = !self.sent.is_empty() && numbers.one_in(16);
        let message = match again {
            true => {
                let place = numbers.under(self.sent.len());
                let mut message = self.sent[place].to_vec();
                if numbers.one_in(8) && !message.is_empty() {
                    damage::damage(numbers, &mut message);
                }
                message
            }
            false => message(numbers, lines, &table, &room),
        };
        if self.sent.len() == REMEMBERED {
            self.sent.pop_front();
        }
        self.sent.push_back(message.clone().into_boxed_slice());
        let own = own(numbers, lines, &table);
        let reply = match numbers.under(40) {
            0 => numbers.pick(&[0, 1, 64, REPLY_BYTES - 1, REPLY_BYTES - 1]),
            1 => numbers.pick(&[REPLY_BYTES + 1, 20_000]),
            _ => REPLY_BYTES,
        };
        Case {
            lines: lines_given(numbers, lines),
            message: message.into_boxed_slice(),
            table,
            room,
            blocks: tables::blocks(numbers),
            own: own.into_boxed_slice(),
            reply,
        }
    }
}

/// The count given: nearly always that of the table, else another's, one about
/// it, or none.
fn lines_given(numbers: &mut Numbers, lines: Lines) -> u32 {
    const UNFIT: [u32; 10] = [0, 0, 17, 17, 18, 32, 255, 256, 1 << 31, u32::MAX];
    let count = lines.count();
    match numbers.under(80) {
        0 => numbers.pick(&UNFIT),
        // A good count in the low bits.
        1 => count + (1 << numbers.within(5..=31)),
        2 => tables::lines(numbers).count(),
        3 => numbers.pick(&[count - 1, count + 1]),
        _ => count,
    }
}

fn message(numbers: &mut Numbers, lines: Lines, table: &[u32], room: &Room) -> Vec<u8> {
    let mut scope = Scope::whole(numbers, lines, table);
    let kept = room.kept().into_iter();
    scope.kept = kept.map(|(sender, id, _)| (sender, id)).collect();
    match numbers.under(32) {
        0..=15 => Writer::new(numbers, table, &scope).message(),
        16..=22 => {
            let mut message = Writer::new(numbers, table, &scope).message();
            damage::damage(numbers, &mut message);
            message
        }
        23..=28 => limits::message(numbers, table, &scope),
        29 => {
            let mut message = limits::message(numbers, table, &scope);
            damage::damage(numbers, &mut message);
            message
        }
        30 => damage::noise(numbers),
        _ => {
            let length = numbers.pick(&[0, 0, MESSAGE_BYTES + 1, 5_000]);
            vec![b' '; length]
        }
    }
}

fn own(numbers: &mut Numbers, lines: Lines, table: &[u32]) -> Vec<u8> {
    let odd = numbers.under(24);
    if odd > 2 {
        return b"[10.0.0.9]".to_vec();
    }
    let scope = Scope::whole(numbers, lines, table);
    let mut writer = Writer::new(numbers, table, &scope);
    if odd == 0 {
        limits::mid(&mut writer);
    } else {
        writer.mid();
    }
    let mut own = writer.bytes;
    match numbers.under(8) {
        0 => own.clear(),
        1 => own.push(b' '),
        2 => damage::damage(numbers, &mut own),
        _ => {}
    }
    own
}

/// What a side made of a call: its result, and all that it could write, with
/// what stands around the two buffers.
#[derive(PartialEq, Eq)]
pub struct Outcome {
    word: u64,
    message: Box<[u8]>,
    own: Box<[u8]>,
    table: Vec<u32>,
    room: Room,
    blocks: Vec<u32>,
    reply: Vec<u8>,
    guard: usize,
}

impl Outcome {
    pub fn refusal(&self) -> u64 {
        self.word >> 32
    }

    pub fn length(&self) -> usize {
        self.word as u32 as usize
    }

    pub fn table(&self) -> &[u32] {
        &self.table[self.guard..self.table.len() - self.guard]
    }

    pub fn blocks(&self) -> &[u32] {
        &self.blocks[self.guard..self.blocks.len() - self.guard]
    }

    /// The lent room.
    pub fn room(&self) -> Room {
        let Room { words, bytes } = &self.room;
        Room {
            words: words[self.guard..words.len() - self.guard].to_vec(),
            bytes: bytes[self.guard..bytes.len() - self.guard].to_vec(),
        }
    }

    fn buffer(&self) -> &[u8] {
        &self.reply[self.guard..self.reply.len() - self.guard]
    }

    /// Whether nothing but the table, the room, the blocks and the reply is
    /// written: the rest of the buffer, what stands around these, the message and
    /// the own mId stay.
    pub fn stays_elsewhere(&self, case: &Case) -> bool {
        let (before, table) = self.table.split_at(self.guard);
        let after = &table[case.table.len()..];
        let end = self.guard + self.text().len();
        let pattern = &PATTERN[..self.reply.len()];
        let (left, blocks) = self.blocks.split_at(self.guard);
        let right = &blocks[case.blocks.len()..];
        let (words, bytes) = (&self.room.words, &self.room.bytes);
        let (first, kept) = words.split_at(self.guard);
        let last = &kept[case.room.words.len()..];
        let (front, replies) = bytes.split_at(self.guard);
        let back = &replies[case.room.bytes.len()..];
        first.iter().chain(last).all(|&word| word == AROUND)
            && front.iter().chain(back).all(|&byte| byte == BESIDE)
            && before.iter().chain(after).all(|&word| word == AROUND)
            && left.iter().chain(right).all(|&word| word == AROUND)
            && self.reply[..self.guard] == pattern[..self.guard]
            && self.reply[end..] == pattern[end..]
            && self.message == case.message
            && self.own == case.own
    }

    /// The reply; the whole buffer where the length is past it.
    pub fn text(&self) -> &[u8] {
        let buffer = self.buffer();
        &buffer[..self.length().min(buffer.len())]
    }
}

/// How much stands around a lent buffer to see a write past its ends.
/// Odd, so that a table is aligned as its words are and not more.
pub const GUARD: usize = 21;

/// What stands around a lent table.
const AROUND: u32 = 0xDEAD_BEEF;

/// What stands around a room's bytes.
const BESIDE: u8 = 0xBE;

/// What a reply buffer holds before a call.
static PATTERN: [u8; 20_000 + 2 * GUARD] = {
    let mut pattern = [0; 20_000 + 2 * GUARD];
    let mut place = 0;
    while place < pattern.len() {
        pattern[place] = (place * 7 + place / 256) as u8 | 0x80;
        place += 1;
    }
    pattern
};

/// Lets a side answer. What is lent has `guard` places around it.
pub fn outcome(case: &Case, call: Call, guard: usize) -> Outcome {
    let message = case.message.clone();
    let own = case.own.clone();
    let mut table = vec![AROUND; case.table.len() + 2 * guard];
    let lent = &mut table[guard..guard + case.table.len()];
    lent.copy_from_slice(&case.table);
    let mut reply = PATTERN[..case.reply + 2 * guard].to_vec();
    let buffer = &mut reply[guard..guard + case.reply];
    let mut blocks = vec![AROUND; case.blocks.len() + 2 * guard];
    let figures = &mut blocks[guard..guard + case.blocks.len()];
    figures.copy_from_slice(&case.blocks);
    let kept = &case.room;
    let mut room = Room {
        words: vec![AROUND; kept.words.len() + 2 * guard],
        bytes: Vec::with_capacity(kept.bytes.len() + 2 * guard),
    };
    let held = &mut room.words[guard..guard + kept.words.len()];
    held.copy_from_slice(&kept.words);
    room.bytes.resize(guard, BESIDE);
    room.bytes.extend_from_slice(&kept.bytes);
    room.bytes.resize(kept.bytes.len() + 2 * guard, BESIDE);
    let mut replies = Lent {
        words: held,
        bytes: &mut room.bytes[guard..guard + kept.bytes.len()],
    };
    let word = call(
        case.lines,
        &message,
        lent,
        &mut replies,
        figures,
        &own,
        buffer,
    );
    Outcome {
        word,
        message,
        own,
        table,
        room,
        blocks,
        reply,
        guard,
    }
}

/// A call that two sides do not answer alike.
pub struct Difference {
    what: String,
    case: Case,
    expected: Outcome,
    got: Outcome,
}

impl fmt::Display for Difference {
    fn fmt(&self, f: &mut fmt::Formatter) -> fmt::Result {
        writeln!(f, "DIFFERENCE: {}", self.what)?;
        writeln!(f, "lines     {}", self.case.lines)?;
        writeln!(f, "message   {}", self.case.message.escape_ascii())?;
        writeln!(f, "table     {}", tables::shown(&self.case.table))?;
        writeln!(f, "room      {}", rooms::shown(&self.case.room))?;
        writeln!(f, "blocks    {}", tables::figures_shown(&self.case.blocks))?;
        writeln!(f, "own mId   {}", self.case.own.escape_ascii())?;
        writeln!(f, "buffer    {} bytes", self.case.reply)?;
        for (side, outcome) in [("reference", &self.expected), ("archive  ", &self.got)] {
            let (refusal, length) = (outcome.refusal(), outcome.length());
            writeln!(f, "{side} refusal {refusal}, length {length}")?;
            writeln!(f, "  reply   {}", outcome.text().escape_ascii())?;
            writeln!(f, "  table   {}", tables::shown(outcome.table()))?;
            let room = match outcome.room() == self.case.room {
                true => "as before".to_string(),
                false => rooms::shown(&outcome.room()),
            };
            writeln!(f, "  room    {room}")?;
            writeln!(f, "  blocks  {}", tables::figures_shown(outcome.blocks()))?;
        }
        Ok(())
    }
}

/// What is not alike in two outcomes of one call.
fn unlike(expected: &Outcome, got: &Outcome) -> Option<String> {
    if expected == got {
        return None;
    }
    let bytes = expected.buffer().iter().zip(got.buffer());
    let words = expected.table().iter().zip(got.table());
    Some(if expected.refusal() != got.refusal() {
        format!("refusal {}, not {}", got.refusal(), expected.refusal())
    } else if expected.length() != got.length() {
        format!("length {}, not {}", got.length(), expected.length())
    } else if let Some((at, (old, new))) = bytes.enumerate().find(|(_, (old, new))| old != new) {
        let past = match at < expected.length() {
            true => "",
            false => ", past the reply's length",
        };
        format!("byte {at} is {new}, not {old}{past}")
    } else if let Some((at, (old, new))) = words.enumerate().find(|(_, (old, new))| old != new) {
        format!("word {at} is {new}, not {old}")
    } else if expected.blocks() != got.blocks() {
        "the blocks are others".to_string()
    } else if let Some(what) = rooms_unlike(&expected.room(), &got.room()) {
        what
    } else if expected.table != got.table
        || expected.room != got.room
        || expected.blocks != got.blocks
        || expected.reply != got.reply
    {
        "something beside the lent buffers is written".to_string()
    } else {
        "the message or the own mId is written".to_string()
    })
}

/// The first word or byte in which two rooms are not alike.
fn rooms_unlike(expected: &Room, got: &Room) -> Option<String> {
    let words = expected.words.iter().zip(&got.words).enumerate();
    let bytes = expected.bytes.iter().zip(&got.bytes).enumerate();
    let word = words.clone().find(|(_, (old, new))| old != new);
    let byte = bytes.clone().find(|(_, (old, new))| old != new);
    let word = word.map(|(at, (old, new))| format!("the room's word {at} is {new}, not {old}"));
    word.or(byte.map(|(at, (old, new))| format!("the room's byte {at} is {new}, not {old}")))
}

/// Lets both sides answer and compares refusal, length, the whole buffer, the
/// whole table, the whole room and the blocks. Gives what the reference made of the call.
pub fn compare(case: &Case, call: Call, guard: usize) -> Result<Outcome, Box<Difference>> {
    let expected = outcome(case, reference_word, guard);
    let got = outcome(case, call, guard);
    match unlike(&expected, &got) {
        None => Ok(expected),
        Some(what) => Err(Box::new(Difference {
            what,
            case: case.clone(),
            expected,
            got,
        })),
    }
}

/// The same difference, or another, with as short a message as taking parts
/// out of it gives.
pub fn shortened(mut found: Box<Difference>, call: Call, guard: usize) -> Box<Difference> {
    let mut part = found.case.message.len();
    while part > 0 {
        let length = found.case.message.len();
        let mut at = 0;
        while at + part <= found.case.message.len() {
            let mut case = found.case.clone();
            let rest = [&case.message[..at], &case.message[at + part..]];
            case.message = rest.concat().into_boxed_slice();
            match compare(&case, call, guard) {
                Err(shorter) => found = shorter,
                Ok(_) => at += part,
            }
        }
        // The same once more where something went.
        if found.case.message.len() == length {
            part /= 2;
        }
    }
    found
}

/// The codes that documents 01 and 02 answer with.
const CODES: [u32; 22] = [
    400, 403, 406, 410, 411, 412, 421, 430, 431, 432, 433, 434, 435, 442, 443, 444, 445, 447, 448,
    449, 503, 533,
];

/// The refusals, in the order in which they are judged.
const REFUSALS: [u64; 6] = [8, 3, 2, 5, 4, 1];

/// What the calls were.
#[derive(Default)]
pub struct Tally {
    calls: u64,
    taken: u64,
    refused: BTreeMap<u64, u64>,
    /// Calls that change the table, by their count of lines.
    lines: BTreeMap<u32, u64>,
    /// Calls that change the low and the high half of the map.
    map: [u64; 2],
    /// Calls that change the flows.
    flows: u64,
    /// Calls taken whose message holds texts, and calls that change where speech
    /// goes.
    texts: u64,
    speech: u64,
    /// Calls that change the blocks, and that report figures.
    blocks: [u64; 2],
    /// Of the calls taken: those whose first transaction is kept, those of
    /// acknowledgements alone, those that leave fewer kept, and those in which the
    /// oldest goes.
    room: [u64; 4],
    /// Calls whose reply has the code.
    codes: BTreeMap<u32, u64>,
    /// Transactions' replies of exactly 2,048 bytes.
    full: u64,
}

impl Tally {
    pub fn count(&mut self, case: &Case, outcome: &Outcome) {
        self.calls += 1;
        match outcome.refusal() {
            0 => {
                self.taken += 1;
                self.texts += u64::from(!speech::texts(&case.message).is_empty());
            }
            refusal => *self.refused.entry(refusal).or_default() += 1,
        }
        if outcome.table() != case.table {
            *self.lines.entry(case.lines).or_default() += 1;
            let speech = case.table.len() - 8 * EPHEMERALS;
            let flows = speech - 2 * CONTEXTS;
            let map = flows - 2;
            self.flows += u64::from(outcome.table()[flows..speech] != case.table[flows..speech]);
            self.speech += u64::from(outcome.table()[speech..] != case.table[speech..]);
            for (half, changes) in self.map.iter_mut().enumerate() {
                *changes += u64::from(outcome.table()[map + half] != case.table[map + half]);
            }
        }
        let text = outcome.text();
        self.blocks[0] += u64::from(outcome.blocks() != case.blocks);
        self.blocks[1] += u64::from(text.windows(7).any(|window| window == b"rtp/jit"));
        if outcome.refusal() == 0 {
            self.count_room(case, outcome);
        }
        let mut codes: Vec<u32> = text
            .windows(6)
            .filter(|window| window.starts_with(b"ER="))
            .map(|window| {
                window[3..]
                    .iter()
                    .fold(0, |code, byte| 10 * code + u32::from(byte - b'0'))
            })
            .collect();
        codes.sort_unstable();
        codes.dedup();
        for code in codes {
            *self.codes.entry(code).or_default() += 1;
        }
        let inside = text.len().saturating_sub(5 + case.own.len());
        self.full += u64::from(inside == 2_048);
    }

    fn count_room(&mut self, case: &Case, outcome: &Outcome) {
        let (before, after) = (case.room.kept(), outcome.room().kept());
        let message = read(&case.message).unwrap_or_default();
        let first = message.transactions().next().map(|one| one.id);
        let is_kept =
            |(sender, id, _): &rooms::Kept| sender == message.sender && Some(*id) == first;
        let goes = before.len() == SLOTS && after.last() != before.last();
        let counts = [
            before.iter().any(is_kept),
            outcome.length() == 0,
            after.len() < before.len(),
            goes && !after.contains(&before[0]),
        ];
        for (sum, count) in self.room.iter_mut().zip(counts) {
            *sum += u64::from(count);
        }
    }

    /// What never came in so many calls.
    pub fn missing(&self) -> Vec<String> {
        let codes = CODES.iter().filter(|code| !self.codes.contains_key(code));
        let mut missing: Vec<String> = codes.map(|code| format!("code {code}")).collect();
        let refusals = REFUSALS
            .iter()
            .filter(|number| !self.refused.contains_key(number));
        missing.extend(refusals.map(|number| format!("refusal {number}")));
        let counts = (1..=16).filter(|count| !self.lines.contains_key(count));
        missing.extend(counts.map(|count| format!("a change on {count} lines")));
        if self.map.contains(&0) {
            missing.push("a change of each half of the map".to_string());
        }
        if self.flows == 0 {
            missing.push("a change of the flows".to_string());
        }
        if self.texts == 0 {
            missing.push("a text".to_string());
        }
        if self.speech == 0 {
            missing.push("a change of where speech goes".to_string());
        }
        if self.blocks.contains(&0) {
            missing.push("a change of the blocks, and figures".to_string());
        }
        if self.room.contains(&0) {
            missing.push(
                "a repeat, acknowledgements alone, a reply dropped, the oldest gone".to_string(),
            );
        }
        if self.full == 0 {
            missing.push("a reply of 2,048 bytes".to_string());
        }
        missing
    }
}

impl fmt::Display for Tally {
    fn fmt(&self, f: &mut fmt::Formatter) -> fmt::Result {
        let changed: u64 = self.lines.values().sum();
        write!(
            f,
            "{} calls: {} taken, {changed} of them change the table; refused",
            self.calls, self.taken
        )?;
        for number in REFUSALS {
            let calls = self.refused.get(&number).unwrap_or(&0);
            write!(f, " {number}:{calls}")?;
        }
        f.write_str("; changes on so many lines")?;
        for (count, calls) in &self.lines {
            write!(f, " {count}:{calls}")?;
        }
        let [low, high] = self.map;
        let [repeats, alone, dropped, gone] = self.room;
        write!(
            f,
            "; changes of the map low:{low} high:{high}, of the flows:{}, of speech:{}, of the blocks:{}; with texts {}, figures {}; repeats {repeats}, acknowledgements alone {alone}, replies dropped {dropped}, the oldest gone {gone}; codes",
            self.flows, self.speech, self.blocks[0], self.texts, self.blocks[1]
        )?;
        for (code, calls) in &self.codes {
            write!(f, " {code}:{calls}")?;
        }
        Ok(())
    }
}
