//! The contexts of a table as text, for any count of lines, sound or not, and
//! any output, against the reference.

use reference::listing;
use reference::table::{Lines, Table};

use crate::numbers::Numbers;
use crate::tables;

/// A side: the count of lines, the table and the output; the text's length in
/// the low 32 bits, the refusal in the high ones.
pub type Asked = fn(u32, &[u32], &mut [u8]) -> u64;

/// The least length of an output.
pub const OUTPUT_BYTES: usize = 8_192;

/// What an output holds before the call.
const FILL: u8 = 0xA5;

/// The side of the reference: "8, then 11 for an output under 8,192 bytes, then
/// 2", nothing written by any.
pub fn reference(lines: u32, table: &[u32], out: &mut [u8]) -> u64 {
    let Some(lines) = Lines::fitted(lines) else {
        return 8 << 32;
    };
    if out.len() < OUTPUT_BYTES {
        return 11 << 32;
    }
    let mut table = table.to_vec();
    if Table::sound(lines, &mut table).is_none() {
        return 2 << 32;
    }
    let mut text = Vec::new();
    listing::contexts(lines, &mut table, &mut text).expect("a sound table");
    out[..text.len()].copy_from_slice(&text);
    text.len() as u64
}

/// Every termination in a context, in as many contexts as there are: the
/// longest text.
fn filled(numbers: &mut Numbers, lines: Lines) -> Vec<u32> {
    let mut table = tables::fresh(lines);
    let contexts = numbers
        .pick(&[lines.terminations().div_ceil(8), 100, 128])
        .max(lines.terminations().div_ceil(8));
    for termination in 0..lines.terminations() {
        let context = termination % contexts;
        table[termination] = context as u32 + 1;
        table[lines.records() + context] = 32;
    }
    tables::set_map(lines, &mut table);
    table
}

/// Asks a side once. Gives what it answered, or how it is unlike the reference.
pub fn ask(numbers: &mut Numbers, side: Asked) -> Result<u64, String> {
    let fitted = tables::lines(numbers);
    let table = match numbers.under(8) {
        0 => tables::damaged(numbers, fitted),
        1 => filled(numbers, fitted),
        2 => tables::lowest(numbers, fitted),
        _ => tables::sound(numbers, fitted),
    };
    let lines = match numbers.under(16) {
        0 => numbers.pick(&[0, 17, 264, u32::MAX]),
        1 => tables::lines(numbers).count(),
        _ => fitted.count(),
    };
    let length = match numbers.under(8) {
        0 => numbers.pick(&[0, 1, 100, OUTPUT_BYTES - 1]),
        1 => numbers.pick(&[OUTPUT_BYTES + 1, 3 * OUTPUT_BYTES]),
        _ => OUTPUT_BYTES,
    };
    let (mut expected, mut got) = (vec![FILL; length], vec![FILL; length]);
    let answers = [
        reference(lines, &table, &mut expected),
        side(lines, &table, &mut got),
    ];
    if answers[0] != answers[1] || expected != got {
        let [one, other] = [&expected, &got].map(|out| text(out));
        return Err(format!(
            "lines {lines}, output of {length} bytes, table {}\n  \
             expected {:x} {one}\n  got {:x} {other}",
            tables::shown(&table),
            answers[0],
            answers[1],
        ));
    }
    Ok(answers[1])
}

/// What was written, up to the first byte that was there before.
fn text(out: &[u8]) -> String {
    let end = out.iter().position(|&byte| byte == FILL);
    out[..end.unwrap_or(out.len())].escape_ascii().to_string()
}
