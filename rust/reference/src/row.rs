//! A table carried to a spare as a row of numbers (document 02, request 14).

use crate::table::{Lines, Table, CONTEXTS, EPHEMERALS};

/// The least length of an output.
pub const OUTPUT_BYTES: usize = 8_192;

/// Writes the table's row from the start of the output and gives its length, or the
/// refusal: "8, then 11 for an output under 8,192 bytes, then 2".
pub fn write(lines: u32, table: &[u32], out: &mut [u8]) -> Result<usize, u32> {
    let lines = Lines::fitted(lines).ok_or(8u32)?;
    if out.len() < OUTPUT_BYTES {
        return Err(11);
    }
    if Table::sound(lines, &mut table.to_vec()).is_none() {
        return Err(2);
    }
    let row = encoded(&numbers(lines, table));
    out[..row.len()].copy_from_slice(&row);
    Ok(row.len())
}

/// Fills the table from a row, or gives the refusal: "8, then 2 for a table of the
/// wrong size, then 10 for any bytes that are not a sound table's row with that
/// count of lines".
pub fn read(lines: u32, row: &[u8], table: &mut [u32]) -> Result<(), u32> {
    let lines = Lines::fitted(lines).ok_or(8u32)?;
    if table.len() != lines.words() {
        return Err(2);
    }
    let numbers = decoded(row).ok_or(10u32)?;
    let mut given = given(lines, &numbers).ok_or(10u32)?;
    if Table::sound(lines, &mut given).is_none() {
        return Err(10);
    }
    table.copy_from_slice(&given);
    Ok(())
}

/// The numbers of a table.
pub fn numbers(lines: Lines, table: &[u32]) -> Vec<u32> {
    // "the count of lines"
    let mut all = vec![lines.count()];
    for termination in 0..lines.terminations() {
        // "each termination's context and properties"
        all.push(table[termination]);
        all.push(table[lines.properties() + termination]);
        // "for an ephemeral also 0 or 1 for Local and, after 1, its address, port
        // and type, then the same for Remote"
        if let Some(ephemeral) = termination.checked_sub(lines.line_terminations()) {
            for side in table[lines.speech() + 8 * ephemeral..][..8].chunks(4) {
                match side {
                    [0, ..] => all.push(0),
                    given => all.extend(given),
                }
            }
        }
    }
    // "last each context's record and two flow words"
    for context in 0..CONTEXTS {
        all.push(table[lines.records() + context]);
        all.extend(&table[lines.flows() + 2 * context..][..2]);
    }
    all
}

/// The table, sound or not, that has these numbers; none if they are too few or too
/// many, are of another count, or have another flag than 0 or 1.
fn given(lines: Lines, numbers: &[u32]) -> Option<Vec<u32>> {
    let mut table = vec![0; lines.words()];
    let mut numbers = numbers.iter().copied();
    if numbers.next()? != lines.count() {
        return None;
    }
    for termination in 0..lines.terminations() {
        table[termination] = numbers.next()?;
        table[lines.properties() + termination] = numbers.next()?;
        if let Some(ephemeral) = termination.checked_sub(lines.line_terminations()) {
            for side in table[lines.speech() + 8 * ephemeral..][..8].chunks_mut(4) {
                match numbers.next()? {
                    0 => {}
                    1 => {
                        side[0] = 1;
                        for word in &mut side[1..] {
                            *word = numbers.next()?;
                        }
                    }
                    _ => return None,
                }
            }
        }
    }
    for context in 0..CONTEXTS {
        table[lines.records() + context] = numbers.next()?;
        table[lines.flows() + 2 * context] = numbers.next()?;
        table[lines.flows() + 2 * context + 1] = numbers.next()?;
    }
    // "The map of CR 5 is worked out."
    for place in 0..EPHEMERALS {
        let exists = table[lines.line_terminations() + place] != 0;
        table[lines.map() + place / 32] |= u32::from(exists) << (place % 32);
    }
    numbers.next().is_none().then_some(table)
}

/// "Numbers are in groups of seven bits, low group first, the top bit set on all but
/// the last".
pub fn encoded(numbers: &[u32]) -> Vec<u8> {
    let mut row = Vec::new();
    for &number in numbers {
        let mut rest = number;
        while rest >= 128 {
            row.push(rest as u8 | 128);
            rest >>= 7;
        }
        row.push(rest as u8);
    }
    row
}

/// The numbers of the bytes; none if they end inside of one, or one is over 32 bits
/// or not in "shortest form".
pub fn decoded(row: &[u8]) -> Option<Vec<u32>> {
    let mut numbers = Vec::new();
    // Each part ends with the last group of a number.
    for groups in row.split_inclusive(|byte| byte & 128 == 0) {
        let (last, low) = groups.split_last()?;
        if *last >= 128 || low.len() > 4 || (*last == 0 && !low.is_empty()) {
            return None;
        }
        let bits = |number: u64, group: &u8| number << 7 | u64::from(group & 127);
        let number = groups.iter().rev().fold(0, bits);
        numbers.push(u32::try_from(number).ok()?);
    }
    Some(numbers)
}

#[cfg(test)]
mod tests {
    use super::*;

    #[test]
    fn numbers_in_groups() {
        let samples: [(u32, &[u8]); 9] = [
            (0, &[0]),
            (1, &[1]),
            (127, &[127]),
            (128, &[128, 1]),
            (300, &[172, 2]),
            (16_383, &[255, 127]),
            (16_384, &[128, 128, 1]),
            (1 << 28, &[128, 128, 128, 128, 1]),
            (u32::MAX, &[255, 255, 255, 255, 15]),
        ];
        for (number, groups) in samples {
            assert_eq!(encoded(&[number]), groups);
            assert_eq!(decoded(groups), Some(vec![number]));
        }
        let none: [&[u8]; 7] = [
            &[128],
            &[5, 255],
            &[128, 0],
            &[129, 128, 0],
            &[255, 255, 255, 255, 16],
            &[255, 255, 255, 255, 127],
            &[128, 128, 128, 128, 128, 1],
        ];
        for groups in none {
            assert_eq!(decoded(groups), None, "{groups:?}");
        }
        assert_eq!(decoded(&[]), Some(vec![]));
    }

    #[test]
    fn the_fresh_table() {
        for count in 1..=16 {
            let lines = Lines::fitted(count).unwrap();
            let mut out = vec![0xA5; OUTPUT_BYTES + 3];
            let length = write(count, &vec![0; lines.words()], &mut out).unwrap();
            // One byte for the count and each of two, four and three numbers.
            let all = 1 + 2 * lines.terminations() + 2 * EPHEMERALS + 3 * CONTEXTS;
            assert_eq!(length, all);
            assert_eq!(u32::from(out[0]), count);
            assert!(out[1..length].iter().all(|&byte| byte == 0));
            assert!(out[length..].iter().all(|&byte| byte == 0xA5));
            let mut table = vec![7; lines.words()];
            assert_eq!(read(count, &out[..length], &mut table), Ok(()));
            assert_eq!(table, vec![0; lines.words()]);
            // One byte less, and one more, is no row; nor is another count's.
            let before = table.clone();
            assert_eq!(read(count, &out[..length - 1], &mut table), Err(10));
            assert_eq!(read(count, &out[..length + 1], &mut table), Err(10));
            assert_eq!(read(count, &[], &mut table), Err(10));
            assert_eq!(table, before);
        }
    }

    #[test]
    fn refusals_in_order() {
        let mut table = vec![0; Lines::EIGHT.words()];
        for count in [0, 17, u32::MAX] {
            assert_eq!(write(count, &[], &mut []), Err(8));
            assert_eq!(read(count, &[], &mut table), Err(8));
        }
        assert_eq!(write(8, &[], &mut [0; OUTPUT_BYTES - 1]), Err(11));
        assert_eq!(write(8, &[], &mut [0; OUTPUT_BYTES]), Err(2));
        assert_eq!(write(9, &table, &mut [0; OUTPUT_BYTES]), Err(2));
        assert_eq!(read(9, &[], &mut table), Err(2));
        assert_eq!(read(8, &[], &mut table), Err(10));
        table[0] = 1;
        assert_eq!(write(8, &table, &mut [0; OUTPUT_BYTES]), Err(2));
    }
}
