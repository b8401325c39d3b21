//! A table carried to a spare: written as a row on any output, and a row, whole or
//! damaged, read over any words, against the reference.

use reference::row::{self, OUTPUT_BYTES};
use reference::table::{Lines, CONTEXTS, EPHEMERALS};

use crate::numbers::Numbers;
use crate::tables;

/// A side that writes: the count of lines, the table and the output; the row's
/// length in the low 32 bits, the refusal in the high ones.
pub type Writes = fn(u32, &[u32], &mut [u8]) -> u64;
/// A side that reads: the count of lines, the row and the table; 0 or the refusal.
pub type Reads = fn(u32, &[u8], &mut [u32]) -> u32;

/// What stands on both sides of an output and of a table, so many times, and in an
/// output before the call.
const FILL: u8 = 0xA5;
const AROUND: u32 = 0xDEAD_BEEF;
pub const GUARD: usize = 21;

pub fn reference_writes(lines: u32, table: &[u32], out: &mut [u8]) -> u64 {
    match row::write(lines, table, out) {
        Ok(length) => length as u64,
        Err(refusal) => u64::from(refusal) << 32,
    }
}

pub fn reference_reads(lines: u32, row: &[u8], table: &mut [u32]) -> u32 {
    row::read(lines, row, table).err().unwrap_or(0)
}

/// What a side wrote, with what stands around the output.
pub fn written(lines: u32, table: &[u32], length: usize, side: Writes) -> (u64, Vec<u8>) {
    let mut lent = vec![FILL; length + 2 * GUARD];
    let answer = side(lines, table, &mut lent[GUARD..GUARD + length]);
    (answer, lent)
}

/// What a side read over these words, with what stands around them.
pub fn read(lines: u32, row: &[u8], before: &[u32], side: Reads) -> (u32, Vec<u32>) {
    let mut lent = vec![AROUND; before.len() + 2 * GUARD];
    let part = GUARD..GUARD + before.len();
    lent[part.clone()].copy_from_slice(before);
    let answer = side(lines, row, &mut lent[part]);
    (answer, lent)
}

/// What a pair of calls came to: the refusals, and the length of the row written.
pub struct Asked {
    pub write: u32,
    pub read: u32,
    pub length: u32,
}

/// Asks both sides once: a table is written, and a row that it has, or a damaged one,
/// is read. Gives what was answered, or how it is unlike the reference.
pub fn ask(numbers: &mut Numbers, writes: Writes, reads: Reads) -> Result<Asked, String> {
    let fitted = tables::lines(numbers);
    let sound = match numbers.under(8) {
        0 => tables::lowest(numbers, fitted),
        1 => longest(numbers, fitted),
        _ => tables::sound(numbers, fitted),
    };
    let write = ask_write(numbers, fitted, &sound, writes)?;
    let read = ask_read(numbers, fitted, &sound, reads)?;
    Ok(Asked {
        write: (write >> 32) as u32,
        read,
        length: write as u32,
    })
}

fn told(numbers: &mut Numbers, fitted: Lines) -> u32 {
    match numbers.under(24) {
        0 => numbers.pick(&[0, 17, 264, u32::MAX]),
        1 => tables::lines(numbers).count(),
        _ => fitted.count(),
    }
}

fn ask_write(
    numbers: &mut Numbers,
    fitted: Lines,
    sound: &[u32],
    side: Writes,
) -> Result<u64, String> {
    let table = match numbers.under(8) {
        0 => tables::damaged(numbers, fitted),
        _ => sound.to_vec(),
    };
    let lines = told(numbers, fitted);
    let length = match numbers.under(12) {
        0 => numbers.pick(&[0, 1, 4_369, OUTPUT_BYTES - 1]),
        1 => numbers.pick(&[OUTPUT_BYTES + 1, 3 * OUTPUT_BYTES]),
        _ => OUTPUT_BYTES,
    };
    let expected = written(lines, &table, length, reference_writes);
    let got = written(lines, &table, length, side);
    if expected != got {
        let place = (0..got.1.len()).find(|&place| got.1[place] != expected.1[place]);
        return Err(format!(
            "a row written, lines {lines}, output of {length} bytes, table {}\n  \
             expected {:x}, got {:x}, first other byte {:?}",
            tables::shown(&table),
            expected.0,
            got.0,
            place.map(|place| place as isize - GUARD as isize),
        ));
    }
    Ok(got.0)
}

fn ask_read(
    numbers: &mut Numbers,
    fitted: Lines,
    sound: &[u32],
    side: Reads,
) -> Result<u32, String> {
    let (what, row) = row_of(numbers, fitted, sound);
    let lines = told(numbers, fitted);
    let words = Lines::fitted(lines).unwrap_or(fitted).words();
    let length = match numbers.under(16) {
        0 => numbers.pick(&[0, 1, words - 1, words + 1, words - 62, words + 62]),
        1 => fitted.words(),
        _ => words,
    };
    let before: Vec<u32> = match numbers.under(4) {
        0 => vec![0; length],
        1 => (0..length).map(|_| numbers.word() as u32).collect(),
        2 => {
            let mut other = tables::sound(numbers, fitted);
            other.resize(length, 7);
            other
        }
        _ => vec![7; length],
    };
    let expected = read(lines, &row, &before, reference_reads);
    let got = read(lines, &row, &before, side);
    if expected != got {
        let place = (0..got.1.len()).find(|&place| got.1[place] != expected.1[place]);
        return Err(format!(
            "a row read ({what}), lines {lines}, {length} words, row {}\n  \
             expected {}, got {}, first other word {:?}",
            hex(&row),
            expected.0,
            got.0,
            place.map(|place| place as isize - GUARD as isize),
        ));
    }
    if expected.0 == 0 && what == "whole" && lines == fitted.count() {
        // "reading gives it back"
        assert_eq!(got.1[GUARD..GUARD + length], *sound);
    }
    Ok(got.0)
}

/// A sound table whose row is long: every ephemeral exists, of both sides address,
/// port and type are given, and every flow word is as large as it can be.
fn longest(numbers: &mut Numbers, lines: Lines) -> Vec<u32> {
    let mut table = tables::fresh(lines);
    let contexts = numbers.pick(&[lines.terminations().div_ceil(8), CONTEXTS]);
    let contexts = contexts.max(lines.terminations().div_ceil(8)).min(CONTEXTS);
    let mut members = vec![0usize; contexts];
    for termination in 0..lines.terminations() {
        let context = contexts - 1 - termination % contexts;
        table[termination] = context as u32 + 1;
        table[lines.properties() + termination] = 20;
        table[lines.records() + context] = 32;
        members[context] += 1;
    }
    for (context, &count) in members.iter().enumerate() {
        let mut flows = 0u64;
        for from in 0..count {
            for to in (0..count).filter(|&to| to != from) {
                flows |= 1 << (8 * from + to);
            }
        }
        table[lines.flows() + 2 * context] = flows as u32;
        table[lines.flows() + 2 * context + 1] = (flows >> 32) as u32;
    }
    for side in table[lines.speech()..].chunks_mut(4) {
        side.copy_from_slice(&[1, u32::MAX, 65_535, 127]);
    }
    tables::set_map(lines, &mut table);
    table
}

/// A row of the table, whole or damaged, and how.
fn row_of(numbers: &mut Numbers, lines: Lines, table: &[u32]) -> (&'static str, Vec<u8>) {
    let mut all = row::numbers(lines, table);
    let mut row = row::encoded(&all);
    let place = numbers.under(row.len());
    let at = numbers.under(all.len());
    match numbers.under(20) {
        0..=4 => ("whole", row),
        5 => {
            row[place] ^= 1 << numbers.under(8);
            ("a bit flipped", row)
        }
        6 => {
            row[place] = numbers.byte();
            ("another byte", row)
        }
        7 => {
            row.truncate(place);
            ("cut", row)
        }
        8 => {
            row.pop();
            ("cut by its last byte", row)
        }
        9 => {
            row.push(numbers.pick(&[0, 1, 127, 128, 255]));
            ("a byte more", row)
        }
        10 => {
            row.remove(place);
            ("a byte left out", row)
        }
        11 => {
            row.insert(place, numbers.pick(&[0, 1, 127, 128, 255]));
            ("a byte put in", row)
        }
        12 => {
            let row = with_number(&all, at, |groups| {
                let zeros = numbers.pick(&[1, 2, 6 - groups.len().min(5)]);
                let last = groups.len() - 1;
                groups[last] |= 128;
                groups.resize(groups.len() + zeros - 1, 128);
                groups.push(0);
            });
            ("a number padded", row)
        }
        13 => {
            // Mostly one that has five groups.
            let long: Vec<usize> = (0..all.len()).filter(|&i| all[i] >> 28 != 0).collect();
            let at = if long.is_empty() {
                at
            } else {
                numbers.pick(&long)
            };
            let over = numbers.pick(&[16, 32, 64]);
            let row = with_number(&all, at, |groups| {
                groups.iter_mut().for_each(|group| *group |= 128);
                groups.resize(5, 128);
                groups[4] = groups[4] & 127 | over;
            });
            ("a number over 32 bits", row)
        }
        14 => {
            let some = [2, 20, 21, 32, 33, 127, 128, 129, 65_535, 65_536, u32::MAX];
            all[at] = match numbers.under(4) {
                0 => u32::from(all[at] == 0),
                _ => numbers.pick(&some),
            };
            ("another number", row::encoded(&all))
        }
        15 => {
            all[0] = numbers.pick(&[0, 1, 8, 16, 17, 128 + lines.count(), u32::MAX]);
            ("another count", row::encoded(&all))
        }
        16 => {
            all.remove(at);
            ("a number left out", row::encoded(&all))
        }
        17 => {
            let other = numbers.under(all.len());
            all.swap(at, other);
            ("two numbers exchanged", row::encoded(&all))
        }
        18 => {
            // What does not fit the other words: an ephemeral that comes or goes, a
            // side that is given or not, a record or flows.
            let mut other = table.to_vec();
            let ephemeral = numbers.under(EPHEMERALS);
            let context = numbers.under(CONTEXTS);
            let word = match numbers.under(4) {
                0 => lines.line_terminations() + ephemeral,
                1 => lines.speech() + 8 * ephemeral + 4 * numbers.under(2),
                2 => lines.records() + context,
                _ => lines.flows() + 2 * context + numbers.under(2),
            };
            other[word] = match other[word] {
                0 => 1,
                _ => 0,
            };
            ("a word changed", row::encoded(&row::numbers(lines, &other)))
        }
        _ => {
            let other = tables::damaged(numbers, lines);
            if other.len() != lines.words() {
                return ("no bytes", Vec::new());
            }
            let row = row::encoded(&row::numbers(lines, &other));
            ("of a damaged table", row)
        }
    }
}

/// The row of the numbers with the groups of one of them changed.
fn with_number(all: &[u32], at: usize, change: impl FnOnce(&mut Vec<u8>)) -> Vec<u8> {
    let mut groups = row::encoded(&all[at..=at]);
    change(&mut groups);
    let mut row = row::encoded(&all[..at]);
    row.extend(groups);
    row.extend(row::encoded(&all[at + 1..]));
    row
}

fn hex(bytes: &[u8]) -> String {
    bytes.iter().map(|byte| format!("{byte:02x}")).collect()
}
