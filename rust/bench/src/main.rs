//! `bench`: the archive and the reference side by side, in one table.
//!
//! `bench count SIDE PLACE ROUNDS` lets one side answer one workload, `bench ask
//! SIDE PLACE ROUNDS` one question about maps and `bench packet SIDE PLACE ROUNDS`
//! count packets, and nothing else; the table's instruction counts come from them.

mod workloads;

use std::hint::black_box;
use std::process::Command;
use std::time::Duration;

use differential::calls::{archive_word, reference_word, Call};
use differential::packets::Counted;
use differential::rooms::Room;
use reference::blocks::BLOCK_WORDS;
use reference::table::Lines;
use reference::{map, REPLY_BYTES};
use workloads::{counts, fixed, requests, rooms, Workload, OWN};

const SIDES: [(&str, Call); 2] = [("archive", archive_word), ("reference", reference_word)];
/// Measured rounds; a median is taken of them.
const ROUNDS: usize = 15;
/// How long one side is timed in one round.
const ROUND: Duration = Duration::from_millis(10);

/// So that the C library clears no memory by one instruction that is counted once
/// for each byte.
const NO_REP_STOSB: &str = "glibc.cpu.x86_rep_stosb_threshold=1000000";

type Question = fn(u64) -> u32;

/// What is asked of a map of the ephemerals, for each side.
const QUESTIONS: [(&str, [Question; 2]); 2] = [
    (
        "lowest absent",
        [cordafina::lowest_absent, map::lowest_absent],
    ),
    ("in use", [cordafina::in_use, map::in_use]),
];

/// Who counts packets.
const COUNTERS: [Counted; 2] = [cordafina::packet_word, reference::packet];

/// The states in which packets of R/1 are counted, and the actions that lead there.
const PACKETS: [(&str, &str, usize); 2] = [
    ("R/1 alone, no other figures", "C=${A=$}", 1),
    (
        "64 ephemerals, each with figures",
        "C=${A=$,A=$,A=$,A=$,A=$,A=$,A=$,A=$}",
        8,
    ),
];

const HOW: &str = "\
Times: CPU time of one thread, median of 15 rounds of about 10 ms, the sides by turns in each round, both in
one release build. One reply buffer of 16,640 bytes, not cleared between calls. After each pass over a
workload's messages the words of the table that they change are put back, and after each message the words of
the room, so that none is a repeat of one before; on both sides, within the time.
Instructions: callgrind's count of the same loop, as the difference of a longer and a shorter run, so that
start and set-up are not in it; the C library is set to clear memory by plain stores, which it counts as they are.
Ratios are archive to reference, within this run.
";

fn main() {
    let words: Vec<String> = std::env::args().skip(1).collect();
    let words: Vec<&str> = words.iter().map(String::as_str).collect();
    match words[..] {
        [] => report(),
        ["count", side, place, rounds] => {
            let call = SIDES.iter().find(|(name, _)| *name == side);
            let (_, call) = call.expect("archive or reference");
            let place: usize = place.parse().expect("a workload's place");
            all()[place].run(*call, rounds.parse().expect("a number of rounds"));
        }
        ["ask", side, place, rounds] => {
            let side = SIDES.iter().position(|(name, _)| *name == side);
            let place: usize = place.parse().expect("a question's place");
            let (_, questions) = QUESTIONS[place];
            let question = questions[side.expect("archive or reference")];
            ask(question, rounds.parse().expect("a number of rounds"));
        }
        ["packet", side, place, rounds] => {
            let side = SIDES.iter().position(|(name, _)| *name == side);
            let counter = COUNTERS[side.expect("archive or reference")];
            let place: usize = place.parse().expect("a state's place");
            count(counter, place, rounds.parse().expect("a number of rounds"));
        }
        _ => panic!("usage: bench"),
    }
}

fn all() -> Vec<Workload> {
    let mut all = requests();
    all.extend(fixed());
    all.extend(counts());
    all.extend(rooms());
    all
}

fn report() {
    print!("{HOW}");
    println!(
        "\n{:<27}{:>7} |{:>10}{:>11}{:>7} |{:>8}{:>11} |{:>9}{:>11}{:>7}",
        "request",
        "bytes",
        "archive",
        "reference",
        "ratio",
        "archive",
        "reference",
        "archive",
        "reference",
        "ratio"
    );
    println!(
        "{:<34} |{:>28} |{:>19} |{:>27}",
        "", "ns a message", "ns a byte", "instructions a byte"
    );
    let workloads = all();
    let rooms = workloads.len() - rooms().len();
    let (requests, counts) = (requests().len(), rooms - counts().len());
    for (place, workload) in workloads[..requests].iter().enumerate() {
        let times = times(workload);
        let instructions = instructions(place, workload);
        let messages = workload.messages.len() as f64;
        let bytes = workload.bytes() as f64;
        println!(
            "{:<27}{:>7.0} |{:>10.0}{:>11.0}{:>7.2} |{:>8.2}{:>11.2} |{}",
            workload.name,
            bytes / messages,
            times[0] / messages,
            times[1] / messages,
            times[0] / times[1],
            times[0] / bytes,
            times[1] / bytes,
            match instructions {
                Some([one, other]) => {
                    format!(
                        "{:>9.1}{:>11.1}{:>7.2}",
                        one / bytes,
                        other / bytes,
                        one / other
                    )
                }
                None => "  valgrind is not there".to_string(),
            }
        );
    }
    println!(
        "\nFixed cost of a call: an empty message, turned down after the table and the own mId {} were judged,\n\
         against one plain pass over the table (the sum of its words).\n",
        OWN.escape_ascii()
    );
    println!(
        "{:<27}{:>11}{:>14}{:>11}{:>20}{:>22}",
        "", "archive ns", "reference ns", "pass ns", "archive to pass", "archive instructions"
    );
    for (place, workload) in workloads[..counts].iter().enumerate().skip(requests) {
        let times = times(workload);
        let pass = pass_time(workload);
        println!(
            "{:<27}{:>11.0}{:>14.0}{:>11.0}{:>20.1}{:>22}",
            workload.name,
            times[0],
            times[1],
            pass,
            times[0] / pass,
            instructions(place, workload).map_or("-".to_string(), |[one, _]| format!("{one:.0}"))
        );
    }
    println!("\nBy the count of lines, one call from a fresh table; then in a context of seven or eight members.\n");
    println!(
        "{:<27}{:>7}{:>11}{:>14}{:>7} |{:>22}{:>11}",
        "", "lines", "archive ns", "reference ns", "ratio", "archive instructions", "reference"
    );
    for (place, workload) in workloads[..rooms].iter().enumerate().skip(counts) {
        let times = times(workload);
        println!(
            "{:<27}{:>7}{:>11.0}{:>14.0}{:>7.2} |{}",
            workload.name,
            workload.lines.count(),
            times[0],
            times[1],
            times[0] / times[1],
            match instructions(place, workload) {
                Some([one, other]) => format!("{one:>22.0}{other:>11.0}"),
                None => "  valgrind is not there".to_string(),
            }
        );
    }
    println!(
        "\nKept replies, on a fresh table of eight lines; a repeat stands under what it repeats.\n"
    );
    println!(
        "{:<34}{:>11}{:>14}{:>7} |{:>22}{:>11}",
        "", "archive ns", "reference ns", "ratio", "archive instructions", "reference"
    );
    for (place, workload) in workloads.iter().enumerate().skip(rooms) {
        let times = times(workload);
        println!(
            "{:<34}{:>11.0}{:>14.0}{:>7.2} |{}",
            workload.name,
            times[0],
            times[1],
            times[0] / times[1],
            match instructions(place, workload) {
                Some([one, other]) => format!("{one:>22.0}{other:>11.0}"),
                None => "  valgrind is not there".to_string(),
            }
        );
    }
    println!(
        "\nAsked of a map of the ephemerals, on the 65 maps of the lowest ones. The reference loops over the places.\n"
    );
    println!(
        "{:<27}{:>11}{:>14} |{:>22}{:>11}",
        "", "archive ns", "reference ns", "archive instructions", "reference"
    );
    for (place, (name, questions)) in QUESTIONS.iter().enumerate() {
        let [one, other] = questions.map(|question| {
            let round = |_| timed(|| ask(question, 1_000)).as_nanos() as f64 / 65_000.0;
            median((0..ROUNDS).map(round).collect())
        });
        println!(
            "{name:<27}{one:>11.1}{other:>14.1} |{}",
            match per_round("ask", place, 50) {
                Some([one, other]) => format!("{:>22.1}{:>11.1}", one / 65.0, other / 65.0),
                None => "  valgrind is not there".to_string(),
            }
        );
    }
    println!("\nOne packet of R/1 on eight lines.\n");
    println!(
        "{:<33}{:>11}{:>14} |{:>22}{:>11}",
        "", "archive ns", "reference ns", "archive instructions", "reference"
    );
    for (place, (name, ..)) in PACKETS.iter().enumerate() {
        let [one, other] = COUNTERS.map(|counter| {
            let round = |_| timed(|| count(counter, place, 2_000)).as_nanos() as f64 / 2_000.0;
            median((0..ROUNDS).map(round).collect())
        });
        println!(
            "{name:<33}{one:>11.0}{other:>14.0} |{}",
            match per_round("packet", place, 50) {
                Some([one, other]) => format!("{one:>22.0}{other:>11.0}"),
                None => "  valgrind is not there".to_string(),
            }
        );
    }
}

/// Counts so many packets of R/1 on eight lines.
fn count(counter: Counted, place: usize, rounds: usize) {
    let (_, action, times) = PACKETS[place];
    let message = format!("!/1 [10.0.0.1] T=1{{{}}}", vec![action; times].join(","));
    let (lines, mut blocks) = (Lines::EIGHT, [0; BLOCK_WORDS]);
    let (mut table, mut reply) = (vec![0; lines.words()], [0; REPLY_BYTES]);
    let (message, lines) = (message.as_bytes(), lines.count());
    let mut empty = Room::empty();
    let room = &mut empty.lent();
    reference_word(
        lines,
        message,
        &mut table,
        room,
        &mut blocks,
        OWN,
        &mut reply,
    );
    if times > 1 {
        let each = |block: &mut [u32]| block.copy_from_slice(&[9, 800, 20, 0]);
        blocks.chunks_exact_mut(4).for_each(each);
    }
    for round in 0..rounds as u32 {
        let (arrival, stamp) = (180 * round, 160 * round);
        black_box(counter(lines, &table, &mut blocks, 1, arrival, stamp));
    }
}

/// Asks a question of 65 maps so many times.
fn ask(question: Question, rounds: usize) {
    for _ in 0..rounds {
        for used in 0..=64 {
            let map = u64::MAX.checked_shr(64 - used).unwrap_or(0);
            black_box(question(black_box(map)));
        }
    }
}

/// Nanoseconds of each side for one pass over a workload.
fn times(workload: &Workload) -> [f64; 2] {
    let passes = SIDES.map(|(_, call)| {
        // As many passes as fill a round.
        let mut passes = 1;
        while timed(|| workload.run(call, passes)) < ROUND && passes < 1 << 20 {
            passes *= 2;
        }
        passes
    });
    let mut rounds = [Vec::new(), Vec::new()];
    for round in 0..ROUNDS {
        for turn in 0..2 {
            let side = (round + turn) % 2;
            let time = timed(|| workload.run(SIDES[side].1, passes[side]));
            rounds[side].push(time.as_nanos() as f64 / passes[side] as f64);
        }
    }
    rounds.map(median)
}

fn pass_time(workload: &Workload) -> f64 {
    let sum = |table: &[u32]| {
        table
            .iter()
            .fold(0, |sum: u32, word| sum.wrapping_add(*word))
    };
    let passes = 20_000;
    let round = || {
        let time = timed(|| {
            for _ in 0..passes {
                black_box(sum(black_box(&workload.table)));
            }
        });
        time.as_nanos() as f64 / passes as f64
    };
    median((0..ROUNDS).map(|_| round()).collect())
}

/// How long the thread works, so that other programs on the machine count less.
fn timed(work: impl FnOnce()) -> Duration {
    let start = thread_time();
    work();
    thread_time() - start
}

/// The CPU time that this thread has used.
fn thread_time() -> Duration {
    #[repr(C)]
    struct Time {
        seconds: i64,
        nanoseconds: i64,
    }
    extern "C" {
        fn clock_gettime(clock: i32, time: *mut Time) -> i32;
    }
    /// Linux's CLOCK_THREAD_CPUTIME_ID.
    const THREAD: i32 = 3;
    let mut time = Time {
        seconds: 0,
        nanoseconds: 0,
    };
    // SAFETY: the call writes one timespec, which has this layout on 64-bit
    // Linux.
    let failed = unsafe { clock_gettime(THREAD, &mut time) };
    assert_eq!(failed, 0);
    Duration::new(time.seconds as u64, time.nanoseconds as u32)
}

fn median(mut rounds: Vec<f64>) -> f64 {
    rounds.sort_by(f64::total_cmp);
    rounds[rounds.len() / 2]
}

/// Instructions of each side for one pass over a workload, if valgrind is there.
fn instructions(place: usize, workload: &Workload) -> Option<[f64; 2]> {
    let more = if workload.messages.len() > 1 { 1 } else { 50 };
    per_round("count", place, more)
}

/// Instructions of each side for one round, by so many more in a second run.
fn per_round(what: &str, place: usize, more: usize) -> Option<[f64; 2]> {
    let [one, other] = SIDES.map(|(side, _)| {
        let short = collected(what, side, place, 1)?;
        let long = collected(what, side, place, 1 + more)?;
        Some((long - short) / more as f64)
    });
    Some([one?, other?])
}

/// All instructions of `bench count ..` or `bench ask ..` as callgrind
/// collects them.
fn collected(what: &str, side: &str, place: usize, rounds: usize) -> Option<f64> {
    let program = std::env::current_exe().expect("the path of this program");
    let output = Command::new("valgrind")
        .args(["--tool=callgrind", "--callgrind-out-file=/dev/null"])
        .arg(program)
        .args([what, side, &place.to_string(), &rounds.to_string()])
        .env("GLIBC_TUNABLES", NO_REP_STOSB)
        .output()
        .ok()?;
    let text = String::from_utf8_lossy(&output.stderr);
    let (_, collected) = text.split_once("Collected : ")?;
    collected.split_whitespace().next()?.parse().ok()
}
