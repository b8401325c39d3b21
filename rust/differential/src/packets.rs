//! One packet of an ephemeral, on any table and any blocks, against the
//! reference.

use reference::table::EPHEMERALS;

use crate::numbers::Numbers;
use crate::tables;

/// A side: the count of lines, the table, the blocks, the ephemeral's number,
/// arrival and RTP time; the refusal or 0.
pub type Counted = fn(u32, &[u32], &mut [u32], u32, u32, u32) -> u32;

/// The word that stands on both sides of the blocks, so many times.
const AROUND: u32 = 0xDEAD_BEEF;
const GUARD: usize = 21;

/// Has a side count one packet. Gives what it answered, or how it is unlike the
/// reference.
pub fn ask(numbers: &mut Numbers, side: Counted) -> Result<u32, String> {
    let fitted = tables::lines(numbers);
    let table = match numbers.under(16) {
        0 => tables::damaged(numbers, fitted),
        1..=6 => tables::lowest(numbers, fitted),
        _ => tables::sound(numbers, fitted),
    };
    let lines = match numbers.under(32) {
        0 => numbers.pick(&[0, 17, 264, u32::MAX]),
        1 => tables::lines(numbers).count(),
        _ => fitted.count(),
    };
    let blocks = tables::blocks(numbers);
    let n = number(numbers, &table, fitted.line_terminations());
    let stamp = numbers.word() as u32;
    let old = (n as usize)
        .checked_sub(1)
        .and_then(|k| blocks.get(4 * k + 1));
    let arrival = stamp
        .wrapping_add(old.copied().unwrap_or(0))
        .wrapping_add(difference(numbers));

    let counted = |side: Counted| {
        let mut lent = vec![AROUND; blocks.len() + 2 * GUARD];
        let part = &mut lent[GUARD..GUARD + blocks.len()];
        part.copy_from_slice(&blocks);
        let read = table.clone();
        let answer = side(lines, &read, part, n, arrival, stamp);
        (answer, lent, read)
    };
    let [expected, got] = [reference::packet as Counted, side].map(counted);
    if expected != got {
        let [one, other] = [&expected, &got]
            .map(|(_, lent, _)| tables::figures_shown(&lent[GUARD..GUARD + blocks.len()]));
        return Err(format!(
            "lines {lines}, R/{n}, arrival {arrival}, RTP time {stamp}, table {}\n  \
             blocks {}\n  expected {} {one}\n  got {} {other}",
            tables::shown(&table),
            tables::figures_shown(&blocks),
            expected.0,
            got.0,
        ));
    }
    Ok(got.0)
}

/// The number of an ephemeral: mostly one that exists, if there is one.
fn number(numbers: &mut Numbers, table: &[u32], first: usize) -> u32 {
    let exists = |n: &u32| table.get(first + *n as usize - 1).is_some_and(|&c| c != 0);
    let present: Vec<u32> = (1..=EPHEMERALS as u32).filter(exists).collect();
    match numbers.under(8) {
        0 => numbers.pick(&[0, 65, 1 << 30, u32::MAX]),
        1 => numbers.within(1..=EPHEMERALS) as u32,
        _ if present.is_empty() => numbers.within(1..=EPHEMERALS) as u32,
        _ => numbers.pick(&present),
    }
}

/// By how much the transit differs from the last one.
fn difference(numbers: &mut Numbers) -> u32 {
    let size = match numbers.under(3) {
        0 => numbers.pick(&[0, 1, 7, 8, 1 << 31, (1 << 31) - 1]),
        1 => numbers.under(200) as u32,
        _ => numbers.word() as u32,
    };
    match numbers.one_in(2) {
        true => size.wrapping_neg(),
        false => size,
    }
}
