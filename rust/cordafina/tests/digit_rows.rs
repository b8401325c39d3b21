//! Recorded maps and dialled strings, through the archive that is linked. A row of
//! `digit_rows.txt` has the map in hex (`-` for none), the start timer, 0 or 1 whether
//! a start timer of zero waits or runs out, the dialled string in hex, the
//! result as C has it, and 1 where the plain matcher comes back soon.

use cordafina::digit_map::{dial_plain_word, dial_word};
use cordafina::digit_map::{Dialled, DigitMap, Progress, Timer, ZeroStart};
use cordafina::Refusal;

const ROWS: &str = include_str!("digit_rows.txt");

struct Row {
    map: Vec<u8>,
    start: u32,
    zero: u32,
    dialled: Vec<u8>,
    result: u32,
    plain: bool,
}

fn bytes(hex: &str) -> Vec<u8> {
    let digits = if hex == "-" { "" } else { hex };
    let pairs = digits.as_bytes().chunks(2);
    pairs
        .map(|pair| u8::from_str_radix(std::str::from_utf8(pair).unwrap(), 16).unwrap())
        .collect()
}

fn rows() -> impl Iterator<Item = Row> {
    ROWS.lines().map(|line| {
        let parts: Vec<&str> = line.split(' ').collect();
        Row {
            map: bytes(parts[0]),
            start: parts[1].parse().unwrap(),
            zero: parts[2].parse().unwrap(),
            dialled: bytes(parts[3]),
            result: parts[4].parse().unwrap(),
            plain: parts[5] == "1",
        }
    })
}

/// The result that an answer or a refusal is in C.
fn word(answer: Result<Dialled, Refusal>) -> u32 {
    match answer {
        Ok(Dialled { progress, timer }) => progress as u32 + 256 * timer as u32,
        Err(refusal) => 65536 * refusal.number(),
    }
}

#[test]
fn every_row() {
    let mut count = 0;
    for row in rows() {
        let found = dial_word(&row.map, row.start, row.zero, &row.dialled);
        assert_eq!(found, row.result, "{:?} {:?}", row.map, row.dialled);
        let zero = match row.zero {
            0 => ZeroStart::Waits,
            _ => ZeroStart::RunsOut,
        };
        let map = DigitMap::load(&row.map, row.start, zero);
        let apart = map.and_then(|map| map.dial(&row.dialled));
        assert_eq!(word(apart), row.result, "{:?} {:?}", row.map, row.dialled);
        count += 1;
    }
    assert_eq!(count, ROWS.lines().count());
}

#[test]
fn the_rows_have_every_answer() {
    let has = |result| rows().any(|row| row.result == result);
    for (progress, timer) in [
        (Progress::NoMatch, Timer::None),
        (Progress::MoreNeeded, Timer::None),
        (Progress::MoreNeeded, Timer::Start),
        (Progress::MoreNeeded, Timer::Long),
        (Progress::MoreNeeded, Timer::RunOut),
        (Progress::MorePossible, Timer::None),
        (Progress::MorePossible, Timer::Start),
        (Progress::MorePossible, Timer::Short),
        (Progress::MorePossible, Timer::RunOut),
        (Progress::Closed, Timer::None),
    ] {
        assert!(
            has(word(Ok(Dialled { progress, timer }))),
            "{progress:?} {timer:?}"
        );
    }
    assert!(has(65536 * 6) && has(65536 * 7));
}

#[test]
fn the_plain_matcher_answers_the_same() {
    let mut count = 0;
    for row in rows().filter(|row| row.plain) {
        let found = dial_plain_word(&row.map, row.start, row.zero, &row.dialled);
        assert_eq!(found, row.result, "{:?} {:?}", row.map, row.dialled);
        count += 1;
    }
    assert_eq!(count, 573);
}
