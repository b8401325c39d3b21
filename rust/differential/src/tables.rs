//! Tables: random sound ones, and damaged ones.

use reference::blocks::BLOCK_WORDS;
use reference::table::{Lines, CONTEXTS, EPHEMERALS, MEMBERS};

use crate::numbers::Numbers;

/// A count of lines: each one, and 1, 8, 9 and 16 often.
pub fn lines(numbers: &mut Numbers) -> Lines {
    let count = match numbers.one_in(2) {
        true => numbers.within(1..=Lines::MOST.count() as usize) as u32,
        false => numbers.pick(&[1, 8, 9, 16]),
    };
    Lines::fitted(count).expect("1 to 16")
}

/// The count of lines whose table has so many words.
pub fn lines_of(words: usize) -> Option<Lines> {
    let all = (1..=Lines::MOST.count()).filter_map(Lines::fitted);
    all.into_iter().find(|lines| lines.words() == words)
}

pub fn fresh(lines: Lines) -> Vec<u32> {
    vec![0; lines.words()]
}

/// A sound table, from nearly empty to one with all contexts, all ephemerals
/// or every place taken.
pub fn sound(numbers: &mut Numbers, lines: Lines) -> Vec<u32> {
    let mut table = fresh(lines);
    let mut contexts: Vec<u32> = (1..=CONTEXTS as u32).collect();
    shuffle(numbers, &mut contexts);
    contexts.truncate(numbers.pick(&[0, 1, 2, 3, 6, 20, 60, 127, 128]));
    // Each needs a member, and one or two lines have fewer than 128.
    contexts.truncate(lines.terminations());
    let mut terminations: Vec<usize> = (0..lines.terminations()).collect();
    shuffle(numbers, &mut terminations);
    if numbers.one_in(3) {
        // The ephemerals are taken first.
        terminations.sort_by_key(|&termination| termination >= lines.line_terminations());
    }

    let mut members = [0; CONTEXTS + 1];
    for &context in &contexts {
        let record = 1 + numbers.under(32) as u32;
        table[lines.records() + context as usize - 1] = if numbers.one_in(2) { 1 } else { record };
        table[terminations.pop().expect("as many as contexts")] = context;
        members[context as usize] = 1;
    }
    let most = numbers.pick(&[0, 2 * contexts.len(), 8 * contexts.len()]);
    for _ in 0..numbers.within(0..=most) {
        let context = numbers.pick(&contexts);
        if members[context as usize] < MEMBERS {
            let Some(termination) = terminations.pop() else {
                break;
            };
            table[termination] = context;
            members[context as usize] += 1;
        }
    }

    let set = numbers.pick(&[1, 4, 100]);
    for termination in 0..lines.terminations() {
        let exists = termination < lines.line_terminations() || table[termination] != 0;
        if exists && numbers.one_in(set) {
            table[lines.properties() + termination] = property(numbers);
        }
    }
    set_map(lines, &mut table);
    set_flows(numbers, lines, &mut table);
    set_speech(numbers, lines, &mut table);
    table
}

/// Sets where the speech of the ephemerals goes: of all, of some or of none.
fn set_speech(numbers: &mut Numbers, lines: Lines, table: &mut [u32]) {
    let set = numbers.pick(&[1, 2, 8, 100]);
    for place in 0..2 * EPHEMERALS {
        if table[lines.line_terminations() + place / 2] != 0 && numbers.one_in(set) {
            let address = numbers.word() as u32;
            let port = numbers.pick(&[0, 1, 5004, 65_535]);
            let first = lines.speech() + 4 * place;
            table[first..][..4].copy_from_slice(&[1, address, port, numbers.under(128) as u32]);
        }
    }
}

/// Sets the flows of each context: all, none or some of those between two
/// members.
fn set_flows(numbers: &mut Numbers, lines: Lines, table: &mut [u32]) {
    for context in 1..=CONTEXTS {
        let stands_in = &table[..lines.terminations()];
        let members = stands_in
            .iter()
            .filter(|&&word| word as usize == context)
            .count();
        let some = match numbers.under(4) {
            0 => 0,
            1 => numbers.word(),
            _ => u64::MAX,
        };
        let mut flows = 0;
        for from in 0..members {
            for to in (0..members).filter(|&to| to != from) {
                flows |= some & 1 << (8 * from + to);
            }
        }
        let first = lines.flows() + 2 * (context - 1);
        table[first] = flows as u32;
        table[first + 1] = (flows >> 32) as u32;
    }
}

/// A sound table on which the lowest ephemerals exist, so many that the next one
/// is about a half of the map, or all; now and then one of them is missing.
pub fn lowest(numbers: &mut Numbers, lines: Lines) -> Vec<u32> {
    let count = numbers.pick(&[30, 31, 32, 33, 63, 64]);
    // Nine contexts of three or more.
    let first = numbers.within(1..=CONTEXTS - 8);
    let mut table = fresh(lines);
    for place in 0..count {
        let context = first + place % 9;
        table[lines.line_terminations() + place] = context as u32;
        table[lines.records() + context - 1] = 1 + numbers.under(32) as u32;
    }
    if numbers.one_in(2) {
        let missing = numbers.pick(&[0, 1, 30, 31, 32, 33, 62, 63]);
        table[lines.line_terminations() + missing] = 0;
    }
    set_map(lines, &mut table);
    set_flows(numbers, lines, &mut table);
    set_speech(numbers, lines, &mut table);
    table
}

/// The map that the context words of the ephemerals give, by a walk over them.
pub fn walk(lines: Lines, table: &[u32]) -> u64 {
    let ephemerals = &table[lines.line_terminations()..lines.terminations()];
    let present = ephemerals
        .iter()
        .rev()
        .map(|&context| u64::from(context != 0));
    present.fold(0, |map, bit| map << 1 | bit)
}

/// The map as the table has it.
pub fn map(lines: Lines, table: &[u32]) -> u64 {
    u64::from(table[lines.map()]) | u64::from(table[lines.map() + 1]) << 32
}

/// Sets the map by the walk.
pub fn set_map(lines: Lines, table: &mut [u32]) {
    let map = walk(lines, table);
    table[lines.map()] = map as u32;
    table[lines.map() + 1] = (map >> 32) as u32;
}

/// One of the 15 values.
fn property(numbers: &mut Numbers) -> u32 {
    (numbers.under(5) + 8 * numbers.under(3)) as u32
}

fn shuffle<T>(numbers: &mut Numbers, list: &mut [T]) {
    for place in (1..list.len()).rev() {
        list.swap(place, numbers.under(place + 1));
    }
}

/// A damaged table: of another length, noise, or a sound
/// one with a sentence of soundness broken (or just not broken).
pub fn damaged(numbers: &mut Numbers, lines: Lines) -> Vec<u32> {
    let (properties, records) = (lines.properties(), lines.records());
    let mut table = sound(numbers, lines);
    let length = table.len();
    let context = numbers.within(1..=CONTEXTS);
    let record = records + context - 1;
    let termination = numbers.under(lines.terminations());
    let kind = numbers.under(20);
    match kind {
        0 => {
            // One line less or more is 62 words.
            let lengths = [
                0,
                1,
                properties,
                records,
                length - 1,
                length + 1,
                length - 62,
                length + 62,
            ];
            table.resize(numbers.pick(&lengths), 0);
        }
        1 => table
            .iter_mut()
            .for_each(|word| *word = numbers.word() as u32),
        2 => table[numbers.under(length)] = numbers.word() as u32,
        3 => table[numbers.under(length)] = numbers.under(40) as u32,
        // "each context word at most 128"
        4 => table[termination] = numbers.pick(&[127, 128, 129, 256, u32::MAX]),
        // "each property one of the 15 values"
        5 => table[properties + termination] = numbers.under(26) as u32,
        6 => table[properties + termination] = numbers.pick(&[32, 64, 1 << 8, 1 << 31]),
        // "an absent ephemeral's property 0"; or the last line's, or the first
        // word of the records
        7 => {
            let first = lines.line_terminations() - 1;
            let ephemeral = numbers.within(first..=lines.terminations());
            table[properties + ephemeral] = property(numbers);
        }
        // "a context's record at most 32, and not 0 exactly when some
        // termination stands in that context"
        8 => table[record] = numbers.pick(&[31, 32, 33, 64, u32::MAX]),
        9 => table[record] = u32::from(table[record] == 0),
        10 => table[termination] = context as u32,
        // "2 also when map and words disagree"
        11 => table[lines.map() + numbers.under(2)] ^= 1 << numbers.under(32),
        12 => {
            // About R/32 and R/33.
            let place = numbers.pick(&[0, 30, 31, 32, 33, 63]);
            let ephemeral = lines.line_terminations() + place;
            match numbers.one_in(2) {
                true => table[lines.map() + place / 32] ^= 1 << (place % 32),
                false => table[ephemeral] = context as u32,
            }
        }
        13 => table[lines.map()..lines.flows()].reverse(),
        14 => {
            let other = match numbers.under(5) {
                0 => 0,
                1 => u64::MAX,
                2 => map(lines, &table) << 1,
                3 => map(lines, &table) >> 1,
                _ => map(lines, &table).reverse_bits(),
            };
            table[lines.map()] = other as u32;
            table[lines.map() + 1] = (other >> 32) as u32;
        }
        // "the diagonal and unused places 0"
        16 => {
            let first = lines.flows() + 2 * (context - 1);
            table[first + numbers.under(2)] ^= 1 << numbers.under(32);
        }
        17 => {
            let member = table[termination].max(1).min(CONTEXTS as u32) as usize;
            let first = lines.flows() + 2 * (member - 1);
            table[first + numbers.under(2)] ^= 1 << numbers.under(32);
        }
        // "sound only so, absent ones zero"
        18 => table[lines.speech() + numbers.under(8 * EPHEMERALS)] ^= 1 << numbers.under(32),
        19 => {
            let first = lines.speech() + 4 * numbers.under(2 * EPHEMERALS);
            let port = numbers.pick(&[65_535, 65_536]);
            let side = [
                numbers.pick(&[0, 1, 1, 2]),
                0,
                port,
                numbers.pick(&[127, 128]),
            ];
            table[first..][..4].copy_from_slice(&side);
        }
        // "at most 8 terminations in each non-null context"
        _ => {
            table[record] = 1;
            let count = numbers.pick(&[7, 8, 9]);
            for word in &mut table[..lines.terminations()] {
                *word = if *word == context as u32 { 0 } else { *word };
            }
            table[properties + lines.line_terminations()..records].fill(0);
            let null = (0..lines.line_terminations()).filter(|&line| table[line] == 0);
            for line in null.take(count).collect::<Vec<_>>() {
                table[line] = context as u32;
            }
        }
    }
    // What was done to the words is mostly not to be found by the map alone.
    if (3..=10).contains(&kind) || kind == 15 {
        if !numbers.one_in(4) {
            set_map(lines, &mut table);
        }
    }
    table
}

/// Whether a context has a record.
pub fn has_context(lines: Lines, table: &[u32], context: u32) -> bool {
    let record = lines
        .records()
        .wrapping_add((context as usize).wrapping_sub(1));
    (1..=CONTEXTS as u32).contains(&context) && table.get(record).is_some_and(|&word| word != 0)
}

/// The contexts that have a record.
pub fn contexts(lines: Lines, table: &[u32]) -> Vec<u32> {
    let all = 1..=CONTEXTS as u32;
    all.filter(|&context| has_context(lines, table, context))
        .collect()
}

/// The words that are not 0, each with its place.
pub fn shown(table: &[u32]) -> String {
    let words = table.iter().enumerate().filter(|(_, word)| **word != 0);
    let words: Vec<String> = words
        .map(|(place, word)| format!("{place}:{word}"))
        .collect();
    format!("{} words, {}", table.len(), words.join(" "))
}

/// Sound blocks: fresh, or of any figures.
pub fn sound_blocks(numbers: &mut Numbers) -> Vec<u32> {
    let mut words = vec![0; BLOCK_WORDS];
    if numbers.under(4) == 0 {
        return words;
    }
    for block in words.chunks_exact_mut(4) {
        if numbers.under(3) == 0 {
            continue;
        }
        let jitter = match numbers.under(4) {
            0 => numbers.pick(&[0u64, 7, 8, 15, 16, 1 << 32, 1 << 35, (1 << 35) - 1]),
            _ => numbers.under(1 << 32) as u64 * 8,
        };
        block[0] = numbers.pick(&[1, 2, 77, u32::MAX - 1, u32::MAX]);
        block[1] = numbers.under(1 << 32) as u32;
        block[2] = jitter as u32;
        block[3] = (jitter >> 32) as u32;
    }
    words
}

/// The same, or, rarely, blocks that are not sound.
pub fn blocks(numbers: &mut Numbers) -> Vec<u32> {
    let mut words = sound_blocks(numbers);
    match numbers.under(120) {
        0 => words.truncate(252),
        1 => words.extend([0; 4]),
        2 => words[numbers.pick(&[3, 7, 255])] = 9,
        3 => words[4..8].copy_from_slice(&[0, 0, 1, 0]),
        4 => words[8..12].copy_from_slice(&[0, 1, 0, 0]),
        5 => words[0..4].copy_from_slice(&[5, 1, 1, 8]),
        _ => {}
    }
    words
}

/// The blocks that are not zero, each with its number.
pub fn figures_shown(words: &[u32]) -> String {
    let blocks = words.chunks(4).enumerate();
    let some = blocks.filter(|(_, block)| block.iter().any(|&word| word != 0));
    let shown: Vec<String> = some
        .map(|(k, block)| format!("R/{} {block:?}", k + 1))
        .collect();
    format!("{} words: {}", words.len(), shown.join(", "))
}
