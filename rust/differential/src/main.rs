//! `differential calls SEED COUNT [exact]`: so many calls, the archive against
//! the reference. `exact` lends buffers with nothing around them, for a memory
//! checker.
//!
//! `differential maps SEED COUNT`: what the archive answers of so many maps of
//! the ephemerals, and of the maps of so many sound tables.
//!
//! `differential contexts SEED COUNT`: the contexts of so many tables as text,
//! the archive against the reference.
//!
//! `differential packets SEED COUNT`: so many packets, the archive against the
//! reference.
//!
//! `differential rows SEED COUNT`: so many tables written as rows and so many rows,
//! whole or damaged, read, the archive against the reference.
//!
//! `differential pairs SEED COUNT`: so many pairs of transactions that meet
//! demand 3's conditions, in both orders.

use std::process::ExitCode;

use differential::calls::{archive_word, compare, shortened, Cases, Tally, GUARD};
use differential::contexts;
use differential::maps::{ask, Questions};
use differential::numbers::Numbers;
use differential::packets;
use differential::pairs::Pair;
use differential::rows;

const USAGE: &str =
    "usage: differential calls SEED COUNT [exact] | (maps | contexts | packets | rows | pairs) SEED COUNT";

fn main() -> ExitCode {
    let words: Vec<String> = std::env::args().skip(1).collect();
    let words: Vec<&str> = words.iter().map(String::as_str).collect();
    match test(&words) {
        Some(true) => ExitCode::SUCCESS,
        Some(false) => ExitCode::FAILURE,
        None => {
            eprintln!("{USAGE}");
            ExitCode::from(2)
        }
    }
}

/// Whether the test that the words ask for passed.
fn test(words: &[&str]) -> Option<bool> {
    let [kind, seed, count, rest @ ..] = words else {
        return None;
    };
    let (seed, count) = (seed.parse().ok()?, count.parse().ok()?);
    match (*kind, rest) {
        ("calls", []) => Some(calls(seed, count, GUARD)),
        ("calls", ["exact"]) => Some(calls(seed, count, 0)),
        ("maps", []) => Some(maps(seed, count)),
        ("contexts", []) => Some(contexts(seed, count)),
        ("packets", []) => Some(packets(seed, count)),
        ("rows", []) => Some(rows(seed, count)),
        ("pairs", []) => Some(pairs(seed, count)),
        _ => None,
    }
}

fn calls(seed: u64, count: u64, guard: usize) -> bool {
    let mut cases = Cases::new(seed);
    let mut tally = Tally::default();
    for _ in 0..count {
        let case = cases.draw();
        match compare(&case, archive_word, guard) {
            Ok(outcome) => {
                tally.count(&case, &outcome);
                cases.left(&outcome);
            }
            Err(found) => {
                println!("{}", shortened(found, archive_word, guard));
                println!("seed {seed}, after {tally}: 1 difference");
                return false;
            }
        }
    }
    println!("seed {seed}, {tally}: 0 differences");
    let missing = tally.missing();
    if count >= 50_000 && !missing.is_empty() {
        println!("the calls never gave {}", missing.join(", "));
        return false;
    }
    true
}

fn maps(seed: u64, count: u64) -> bool {
    let archive = Questions {
        lowest_absent: cordafina::lowest_absent,
        in_use: cordafina::in_use,
    };
    let mut numbers = Numbers::new(seed);
    let mut full = 0;
    for place in 0..count {
        match ask(&mut numbers, &archive) {
            Ok(map) => full += u64::from(map == u64::MAX),
            Err(what) => {
                println!("DIFFERENCE: {what}");
                println!("seed {seed}, after {place} maps: 1 difference");
                return false;
            }
        }
    }
    println!("seed {seed}, {count} maps, {full} of them full, and {count} of sound tables: 0 differences");
    true
}

fn contexts(seed: u64, count: u64) -> bool {
    let mut numbers = Numbers::new(seed);
    let (mut refused, mut longest) = ([0; 12], 0);
    for place in 0..count {
        match contexts::ask(&mut numbers, cordafina::contexts_word) {
            Ok(answer) => {
                refused[(answer >> 32) as usize] += 1;
                longest = longest.max(answer as u32);
            }
            Err(what) => {
                println!("DIFFERENCE: {what}");
                println!("seed {seed}, after {place} tables: 1 difference");
                return false;
            }
        }
    }
    let [eight, eleven, two] = [8, 11, 2].map(|number: usize| refused[number]);
    println!(
        "seed {seed}, {count} tables, refused 8 {eight}, 11 {eleven}, 2 {two} times, \
         longest text {longest} bytes: 0 differences"
    );
    if count >= 10_000 && [eight, eleven, two].contains(&0) {
        println!("a refusal never came");
        return false;
    }
    true
}

fn packets(seed: u64, count: u64) -> bool {
    let mut numbers = Numbers::new(seed);
    let mut answered = [0; 10];
    for place in 0..count {
        match packets::ask(&mut numbers, cordafina::packet_word) {
            Ok(answer) => answered[answer as usize] += 1,
            Err(what) => {
                println!("DIFFERENCE: {what}");
                println!("seed {seed}, after {place} packets: 1 difference");
                return false;
            }
        }
    }
    let [taken, eight, two, nine] = [0, 8, 2, 9].map(|number: usize| answered[number]);
    println!(
        "seed {seed}, {count} packets, counted {taken}, refused 8 {eight}, 2 {two}, 9 {nine} times: 0 differences"
    );
    if count >= 10_000 && [taken, eight, two, nine].contains(&0) {
        println!("a refusal never came, or none was counted");
        return false;
    }
    true
}

fn rows(seed: u64, count: u64) -> bool {
    let mut numbers = Numbers::new(seed);
    let (mut wrote, mut read, mut longest) = ([0; 12], [0; 12], 0);
    for place in 0..count {
        match rows::ask(
            &mut numbers,
            cordafina::write_row_word,
            cordafina::read_row_word,
        ) {
            Ok(asked) => {
                wrote[asked.write as usize] += 1;
                read[asked.read as usize] += 1;
                longest = longest.max(asked.length);
            }
            Err(what) => {
                println!("DIFFERENCE: {what}");
                println!("seed {seed}, after {place} rows: 1 difference");
                return false;
            }
        }
    }
    let written = [0, 8, 11, 2].map(|number: usize| wrote[number]);
    let taken = [0, 8, 2, 10].map(|number: usize| read[number]);
    println!(
        "seed {seed}, {count} tables, written {}, refused 8 {}, 11 {}, 2 {} times, longest row {longest} bytes; \
         {count} rows, read {}, refused 8 {}, 2 {}, 10 {} times: 0 differences",
        written[0], written[1], written[2], written[3], taken[0], taken[1], taken[2], taken[3],
    );
    if count >= 10_000 && (written.contains(&0) || taken.contains(&0)) {
        println!("a refusal never came, or no row was taken");
        return false;
    }
    true
}

fn pairs(seed: u64, count: u64) -> bool {
    let mut numbers = Numbers::new(seed);
    let (mut apart, mut both_table, mut both_map, mut both_flows, mut both_speech) =
        (0, 0, 0, 0, 0);
    let (mut others, mut unlike, mut both_oldest) = (0, 0, 0);
    while apart < count {
        let pair = Pair::new(&mut numbers);
        let is_apart = pair.is_apart();
        match pair.run(archive_word) {
            Err(what) if is_apart => {
                println!("UNLIKE: {what}\n{pair}");
                println!("seed {seed}, after {apart} pairs that are apart: 1 ends unlike");
                return false;
            }
            run if is_apart => {
                apart += 1;
                both_table += u64::from(run.as_ref().is_ok_and(|both| both.table));
                both_map += u64::from(run.as_ref().is_ok_and(|both| both.map));
                both_flows += u64::from(run.as_ref().is_ok_and(|both| both.flows));
                both_speech += u64::from(run.as_ref().is_ok_and(|both| both.speech));
                both_oldest += u64::from(run.as_ref().is_ok_and(|both| both.oldest));
            }
            run => {
                others += 1;
                unlike += u64::from(run.is_err());
            }
        }
    }
    println!(
        "seed {seed}, {apart} pairs that are apart, in {both_table} both change the table, in {both_map} the map, in \
         {both_flows} the flows, in {both_speech} where speech goes, in {both_oldest} an old reply goes for each: 0 end unlike; of {others} other pairs {unlike} end unlike"
    );
    true
}
