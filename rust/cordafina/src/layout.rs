//! Sizes and places of the table's words. Reading a [`Table`](crate::Table) by
//! name needs none of them.

/// The greatest count of lines; the least is 1.
pub const MOST_LINES: u32 = 16;
/// Channels of a line.
pub const CHANNELS: u32 = 31;
/// The ephemerals, whatever the count of lines.
pub const EPHEMERALS: usize = 64;
/// The contexts, whatever the count of lines.
pub const CONTEXTS: usize = 128;
/// The most terminations of a context.
pub const MEMBERS: usize = 8;
/// The words of the blocks, four for each ephemeral.
pub const BLOCK_WORDS: usize = 4 * EPHEMERALS;
/// The least length of a reply buffer; no reply is longer.
pub const REPLY_BYTES: usize = 16_640;
/// The least length of an output for the contexts as text; no text is longer.
pub const OUTPUT_BYTES: usize = 8_192;
/// The greatest length of a message.
pub const MESSAGE_BYTES: usize = 4_096;
/// The greatest length of the gateway's own mId.
pub const MID_BYTES: usize = 64;

/// Words and bytes of the room of kept replies.
pub const ROOM_WORDS: usize = 64;
/// See [`ROOM_WORDS`].
pub const ROOM_BYTES: usize = 33_920;

/// Terminations of a table of so many lines, and the place where their
/// properties start: `L/l/s` has number 31 (l - 1) + (s - 1), and after the last
/// line, from [`line_terminations`] on, come the ephemerals `R/1` to `R/64`. A
/// termination's number is the place of its context.
#[must_use]
pub const fn terminations(lines: u32) -> usize {
    line_terminations(lines) + EPHEMERALS
}

/// Terminations of so many lines alone: the number of `R/1`.
#[must_use]
pub const fn line_terminations(lines: u32) -> usize {
    CHANNELS as usize * lines as usize
}

/// Where the records of the contexts 1 to 128 start, for so many lines.
#[must_use]
pub const fn records_start(lines: u32) -> usize {
    2 * terminations(lines)
}

/// Where the map of the ephemerals starts, two words, low half first, for so
/// many lines.
#[must_use]
pub const fn map_start(lines: u32) -> usize {
    records_start(lines) + CONTEXTS
}

/// Where the flows of the contexts 1 to 128 start, two words each, low half
/// first, for so many lines: bit 8i + j is set when member i flows to member j,
/// the members counted from 0 in ascending number.
#[must_use]
pub const fn flows_start(lines: u32) -> usize {
    map_start(lines) + 2
}

/// Where the words that tell where speech goes start, for so many lines: eight
/// for each ephemeral, of Local 1, the address, the port and the payload type, or
/// four zeros, then the same of Remote.
#[must_use]
pub const fn speech_start(lines: u32) -> usize {
    flows_start(lines) + 2 * CONTEXTS
}

/// Words of a table of so many lines: 1522 for eight.
#[must_use]
pub const fn table_words(lines: u32) -> usize {
    speech_start(lines) + 8 * EPHEMERALS
}
