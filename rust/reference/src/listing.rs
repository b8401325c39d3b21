//! The listing program: "reads standard input, one message per line without
//! its line end, from a fresh table". It has eight lines.

use std::io::{self, BufRead, Write};

use crate::room::{Lent, ROOM_BYTES, ROOM_WORDS};
use crate::table::{write_name, Lines, Table, CONTEXTS};
use crate::{answer, Answer, MESSAGE_BYTES, REPLY_BYTES};

const OWN: &[u8] = b"[10.0.0.9]";
const LINES: Lines = Lines::EIGHT;

/// Answers each line of `input` on a line of `out`, then lists the contexts.
pub fn listing(mut input: impl BufRead, mut out: impl Write) -> io::Result<()> {
    let mut blocks = [0; crate::blocks::BLOCK_WORDS];
    // Replies are kept from line to line.
    let mut room = Lent {
        words: &mut [0; ROOM_WORDS],
        bytes: &mut [0; ROOM_BYTES],
    };
    let mut table = [0; LINES.words()];
    let mut reply = vec![0; REPLY_BYTES];
    let mut line = Vec::with_capacity(MESSAGE_BYTES + 1);
    while next_line(&mut input, &mut line)? {
        match answer(
            LINES.count(),
            &line,
            &mut table,
            &mut room,
            &mut blocks,
            OWN,
            &mut reply,
        ) {
            Answer::Taken(length) => {
                out.write_all(&reply[..length])?;
                out.write_all(b"\n")?;
            }
            refused => writeln!(out, "refused {}", refused.number())?,
        }
    }
    contexts(LINES, &mut table, &mut out)?;
    out.flush()
}

/// Reads the next line without its line end, an LF. Of a line over the
/// greatest message only so much is kept as shows that it is over it.
fn next_line(input: &mut impl BufRead, line: &mut Vec<u8>) -> io::Result<bool> {
    line.clear();
    let mut any = false;
    loop {
        let bytes = match input.fill_buf() {
            Err(error) if error.kind() == io::ErrorKind::Interrupted => continue,
            bytes => bytes?,
        };
        if bytes.is_empty() {
            return Ok(any);
        }
        any = true;
        let end = bytes.iter().position(|&byte| byte == b'\n');
        let piece = &bytes[..end.unwrap_or(bytes.len())];
        let room = MESSAGE_BYTES + 1 - line.len();
        line.extend_from_slice(&piece[..piece.len().min(room)]);
        let taken = piece.len() + usize::from(end.is_some());
        input.consume(taken);
        if end.is_some() {
            return Ok(true);
        }
    }
}

/// "`contexts` and their count, and a line per context ascending: number,
/// priority, emergency 0 or 1, member names ascending, one space between
/// fields"
pub fn contexts(lines: Lines, words: &mut [u32], out: &mut impl Write) -> io::Result<()> {
    // No call leaves a table that is not sound.
    let Some(table) = Table::sound(lines, words) else {
        return Err(io::Error::other("the table is not sound"));
    };
    let mut names = vec![Vec::new(); CONTEXTS + 1];
    for termination in (0..lines.terminations()).filter(|&number| table.context_of(number) != 0) {
        let names = &mut names[table.context_of(termination)];
        names.push(b' ');
        write_name(lines, termination, names);
    }
    let present: Vec<usize> = (1..=CONTEXTS)
        .filter(|&context| table.members(context) != 0)
        .collect();
    writeln!(out, "contexts {}", present.len())?;
    for context in present {
        let record = table.record(context);
        let emergency = u32::from(record.emergency);
        write!(out, "{context} {} {emergency}", record.priority)?;
        out.write_all(&names[context])?;
        out.write_all(b"\n")?;
    }
    Ok(())
}
