//! The two questions that are answered from the map of the ephemerals alone,
//! against a loop over its places and against the walk over a sound table.

use reference::map::{in_use, lowest_absent};

use crate::numbers::Numbers;
use crate::tables;

/// A side: the lowest absent number, and the count in use.
pub struct Questions {
    pub lowest_absent: fn(u64) -> u32,
    pub in_use: fn(u64) -> u32,
}

/// The side of the reference.
pub const REFERENCE: Questions = Questions {
    lowest_absent,
    in_use,
};

/// A map: of a sound table, of any bits, or of few, of many or about a place
/// that matters.
fn map(numbers: &mut Numbers) -> u64 {
    let place = numbers.pick(&[0, 1, 30, 31, 32, 33, 62, 63]);
    match numbers.under(8) {
        0 => numbers.word(),
        1 => numbers.word() & numbers.word() & numbers.word(),
        2 => numbers.word() | numbers.word() | numbers.word(),
        3 => 1 << place,
        4 => !(1 << place),
        // All under a place, and some over it.
        5 => (1 << place) - 1,
        6 => ((1 << place) - 1) | numbers.word() << place,
        _ => numbers.pick(&[0, u64::MAX, 0xFFFF_FFFF, 0xFFFF_FFFF_0000_0000]),
    }
}

/// Asks a side about one map, and about the map of a sound table, where the
/// answers are also those of the walk. Gives the first map, or what is unlike.
pub fn ask(numbers: &mut Numbers, side: &Questions) -> Result<u64, String> {
    let drawn = map(numbers);
    let lines = tables::lines(numbers);
    let table = match numbers.one_in(2) {
        true => tables::sound(numbers, lines),
        false => tables::lowest(numbers, lines),
    };
    let ephemerals = &table[lines.line_terminations()..lines.terminations()];
    let absent = ephemerals.iter().position(|&context| context == 0);
    let counted = [
        absent.map_or(0, |place| place as u32 + 1),
        ephemerals.iter().filter(|&&context| context != 0).count() as u32,
    ];
    let of_table = tables::map(lines, &table);
    let looped = [lowest_absent(drawn), in_use(drawn)];
    for (map, expected) in [(drawn, looped), (of_table, counted)] {
        let got = [(side.lowest_absent)(map), (side.in_use)(map)];
        if got != expected {
            return Err(format!(
                "map {map:016x}: lowest absent and in use {got:?}, not {expected:?}"
            ));
        }
    }
    Ok(drawn)
}
