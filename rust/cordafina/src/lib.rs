//! The Megaco trunk gateway: a safe face of the proved library.
//!
//! [`Gateway`] answers one H.248.1 (Megaco) text message after another:
//!
//! ```
//! let mut gateway = cordafina::Gateway::new(b"[10.0.0.9]")?;
//! let reply = gateway.answer(b"!/1 [10.0.0.1] T=7{C=${A=L/1/5,A=$}}")?;
//! assert_eq!(reply, b"!/1 [10.0.0.9] P=7{C=1{A=L/1/5,A=R/1}}");
//! # Ok::<(), cordafina::Refusal>(())
//! ```
//!
//! Nothing need be checked beforehand. What a message may say and what each
//! command does is in `docs/REFERENCE.md`. What the gateway holds is read by
//! name from its [`Table`], and digit maps are in [`digit_map`]. The library has
//! no state and no heap, and neither has this crate.
//!
//! [`answer`] is the call itself, on a lent [`Table`], a lent [`Room`] of kept
//! replies, lent [`Blocks`] and a lent reply buffer:
//!
//! ```
//! use cordafina::{answer, Blocks, Room, Table, REPLY_BYTES};
//!
//! let mut table = Table::fresh();
//! let mut room = Room::empty();
//! let mut blocks = Blocks::fresh();
//! let mut reply = [0; REPLY_BYTES];
//! let message = b"!/1 [10.0.0.1] T=7{C=${A=L/1/5,A=$}}";
//! let length = answer(message, &mut table, &mut room, &mut blocks, b"[10.0.0.9]", &mut reply)?;
//! assert_eq!(&reply[..length], b"!/1 [10.0.0.9] P=7{C=1{A=L/1/5,A=R/1}}");
//! # Ok::<(), cordafina::Refusal>(())
//! ```
//!
//! A shelf has 1 to 16 lines. `Table::fresh` and `Gateway::new` are for eight;
//! a table for another count is made by [`Table::with_lines`]:
//!
//! ```
//! use cordafina::{Gateway, Table};
//!
//! let mut gateway = Gateway::with_table(b"[10.0.0.9]", Table::with_lines(16)?)?;
//! let reply = gateway.answer(b"!/1 [10.0.0.1] T=7{C=${A=L/16/31,A=$}}")?;
//! assert_eq!(reply, b"!/1 [10.0.0.9] P=7{C=1{A=L/16/31,A=R/1}}");
//! # Ok::<(), cordafina::Refusal>(())
//! ```
//!
//! What is kept are the words of the table, whose number gives the count of lines,
//! and of the [`Blocks`]:
//!
//! ```
//! # use cordafina::{Blocks, Gateway, Table};
//! # let gateway = Gateway::new(b"[10.0.0.9]")?;
//! let table: Vec<u32> = gateway.table().words().to_vec();
//! let blocks: Vec<u32> = gateway.blocks().words().to_vec();
//! let (table, blocks) = (Table::try_from(&table[..])?, Blocks::try_from(&blocks[..])?);
//! let again = Gateway::with_state(b"[10.0.0.9]", table, blocks)?;
//! assert_eq!(again.table(), gateway.table());
//! assert_eq!(again.blocks(), gateway.blocks());
//! # Ok::<(), cordafina::Refusal>(())
//! ```
//!
//! The table has a map of the ephemerals. How many are in use, and which is the
//! next, is answered from it alone:
//!
//! ```
//! # let mut gateway = cordafina::Gateway::new(b"[10.0.0.9]")?;
//! gateway.answer(b"!/1 [10.0.0.1] T=7{C=${A=$,A=$,A=$,S=R/2}}")?;
//! assert_eq!(gateway.table().map(), 0b101);
//! assert_eq!(gateway.table().in_use(), 2);
//! assert_eq!(gateway.table().lowest_absent(), 2);
//! # Ok::<(), cordafina::Refusal>(())
//! ```
//!
//! Who hears whom in a context is asked by name, or read as a square of flows.
//! Here a supervisor, `L/1/3`, listens unheard:
//!
//! ```
//! # use cordafina::Termination::Line;
//! # let mut gateway = cordafina::Gateway::new(b"[10.0.0.9]")?;
//! gateway.answer(b"!/1 [10.0.0.1] T=7{C=${A=L/1/1,A=L/1/2,A=L/1/3}}")?;
//! gateway.answer(b"!/1 [10.0.0.1] T=8{C=1{TP{L/1/1,L/1/3,OW,L/1/2,L/1/3,OW}}}")?;
//! let context = gateway.table().context(1).unwrap();
//! assert!(context.hears(Line(1, 3), Line(1, 1)));
//! assert!(!context.hears(Line(1, 1), Line(1, 3)));
//! assert_eq!(context.flows()[0][..3], [false, true, true]);
//! assert_eq!(context.flows()[2][..3], [false, false, false]);
//! # Ok::<(), cordafina::Refusal>(())
//! ```
//!
//! The texts in the braces of Local and Remote, for the card that sends and
//! takes the speech, are parts of the message itself, in reading order:
//!
//! ```
//! use cordafina::{texts, Side};
//!
//! let message = b"!/1 [10.0.0.1] T=1{C=1{MF=R/1{M{R{v=0}}},MF=r/3{M{L{},R{v=0}}}}}";
//! let held: Vec<_> = texts(message).map(|text| (text.side, text.name, text.text)).collect();
//! let [one, three]: [&[u8]; 2] = [b"R/1", b"r/3"];
//! let [nothing, version]: [&[u8]; 2] = [b"", b"v=0"];
//! assert_eq!(held[0], (Side::Remote, one, version));
//! assert_eq!(held[1], (Side::Local, three, nothing));
//! assert_eq!(held[2], (Side::Remote, three, version));
//! assert_eq!(held.len(), 3);
//! ```
//!
//! The RTP card counts packets in an ephemeral's block, and the figures come with
//! the goodbye:
//!
//! ```
//! # let mut gateway = cordafina::Gateway::new(b"[10.0.0.9]")?;
//! gateway.answer(b"!/1 [10.0.0.1] T=7{C=${A=$}}")?;
//! gateway.packet(1, 1000, 200)?;
//! gateway.packet(1, 1180, 360)?;
//! assert_eq!(gateway.blocks().block(1).unwrap().jitter, 20);
//! let reply = gateway.answer(b"!/1 [10.0.0.1] T=8{C=1{S=R/1}}")?;
//! assert_eq!(reply, b"!/1 [10.0.0.9] P=8{C=1{S=R/1{SA{rtp/pr=2,rtp/jit=1}}}}");
//! # Ok::<(), cordafina::Refusal>(())
//! ```
//!
//! A request that is sent again gets the same bytes and does not run twice. The
//! sender acknowledges replies with K, which has no reply; it then drops them from
//! the [`Room`]:
//!
//! ```
//! # let mut gateway = cordafina::Gateway::new(b"[10.0.0.9]")?;
//! let message = b"!/1 [10.0.0.1] T=7{C=${A=$}}";
//! let reply = gateway.answer(message)?.to_vec();
//! assert_eq!(gateway.answer(message)?, reply);
//! assert_eq!((gateway.table().in_use(), gateway.room().kept()), (1, 1));
//! assert_eq!(gateway.answer(b"!/1 [10.0.0.1] K{7}")?, b"");
//! assert_eq!(gateway.room().kept(), 0);
//! assert_eq!(gateway.answer(message)?, b"!/1 [10.0.0.9] P=7{C=2{A=R/2}}");
//! # Ok::<(), cordafina::Refusal>(())
//! ```
//!
//! The archive that is linked is the one that `rt lib` writes in crates/cordafina,
//! or the one that the variable `CORDAFINA_LIB` names when this crate is built
//! (from the top folder of the repository on, if the path is not absolute).
//! Without one, `cargo check` and `cargo doc` work and warn; what is linked fails.

#![no_std]
#![warn(missing_docs)]

mod archive;
mod blocks;
pub mod digit_map;
mod gateway;
mod layout;
mod refusal;
mod room;
mod table;
mod termination;
mod texts;

pub use blocks::{Block, Blocks};
pub use gateway::Gateway;
pub use layout::{
    flows_start, line_terminations, map_start, records_start, speech_start, table_words,
    terminations,
};
pub use layout::{BLOCK_WORDS, CHANNELS, CONTEXTS, EPHEMERALS, MEMBERS, MESSAGE_BYTES, MID_BYTES};
pub use layout::{MOST_LINES, OUTPUT_BYTES, REPLY_BYTES, ROOM_BYTES, ROOM_WORDS};
pub use refusal::Refusal;
pub use room::Room;
pub use table::{Context, Session, Table};
pub use termination::{Mode, ServiceState, Termination, UnknownName};
pub use texts::{text, texts, Side, Text};

/// Answers one message on a table, a room of kept replies and blocks, for a gateway
/// of this own mId: the reply's length, from the buffer's start on, 0 for a message
/// of acknowledgements alone; the bytes past it stay. With a refusal table, room,
/// blocks and buffer are as they were.
///
/// # Errors
/// In this order: `ReplyTooShort` for a buffer under [`REPLY_BYTES`]; `MidUnfit`;
/// `MessageUnfit` for a message of 0 or over [`MESSAGE_BYTES`]. Any other message
/// has a reply.
///
/// # Panics
/// Where the archive that is linked gives a refusal that there is not, so is
/// not this library.
pub fn answer(
    message: &[u8],
    table: &mut Table,
    room: &mut Room,
    blocks: &mut Blocks,
    own: &[u8],
    reply: &mut [u8],
) -> Result<usize, Refusal> {
    let lines = table.lines();
    let (words, bytes) = room.lent();
    let (table, blocks) = (table.lent(), blocks.lent());
    Refusal::or_length(answer_word(
        lines, message, table, words, bytes, blocks, own, reply,
    ))
}

/// Counts one packet of `R/n` in its block: when it came, and its RTP time, in
/// the same units. With a refusal the blocks are as they were.
///
/// # Errors
/// `EphemeralAbsent` for an ephemeral that does not exist, or outside 1 to 64.
pub fn packet(
    table: &Table,
    blocks: &mut Blocks,
    n: u32,
    arrival: u32,
    stamp: u32,
) -> Result<(), Refusal> {
    match packet_word(
        table.lines(),
        table.words(),
        blocks.lent(),
        n,
        arrival,
        stamp,
    ) {
        0 => Ok(()),
        number => Err(Refusal::of_number(number)),
    }
}

/// The same as C has it, with any count of lines and slices of any lengths: the
/// refusal's number or 0.
#[must_use]
pub fn packet_word(
    lines: u32,
    table: &[u32],
    blocks: &mut [u32],
    n: u32,
    arrival: u32,
    stamp: u32,
) -> u32 {
    // SAFETY: each pointer is a slice's own, with its length, and so aligned and
    // not null; the blocks overlap nothing. The callee keeps neither.
    unsafe {
        archive::cordafina_packet(
            lines,
            table.as_ptr(),
            table.len(),
            blocks.as_mut_ptr(),
            blocks.len(),
            n,
            arrival,
            stamp,
        )
    }
}

/// The call as C has it, with any count of lines, slices of any lengths and
/// the result in one word: the reply's length in the low 32 bits, the refusal's
/// number or 0 in the high ones.
#[must_use]
pub fn answer_word(
    lines: u32,
    message: &[u8],
    table: &mut [u32],
    room_words: &mut [u32],
    room_bytes: &mut [u8],
    blocks: &mut [u32],
    own: &[u8],
    reply: &mut [u8],
) -> u64 {
    // SAFETY: each pointer is a slice's own, with its length, and so aligned
    // and not null; the five `&mut` slices overlap nothing. The callee stays
    // within the seven slices and keeps none of them.
    unsafe {
        archive::cordafina_answer(
            lines,
            message.as_ptr(),
            message.len(),
            table.as_mut_ptr(),
            table.len(),
            room_words.as_mut_ptr(),
            room_words.len(),
            room_bytes.as_mut_ptr(),
            room_bytes.len(),
            blocks.as_mut_ptr(),
            blocks.len(),
            own.as_ptr(),
            own.len(),
            reply.as_mut_ptr(),
            reply.len(),
        )
    }
}

/// The contexts of a table of any words as C has them, in one word as
/// [`answer_word`] has it.
#[must_use]
pub fn contexts_word(lines: u32, table: &[u32], out: &mut [u8]) -> u64 {
    // SAFETY: each pointer is a slice's own, with its length, and so aligned and
    // not null; the output overlaps nothing. The callee keeps neither.
    unsafe {
        archive::cordafina_contexts(
            lines,
            table.as_ptr(),
            table.len(),
            out.as_mut_ptr(),
            out.len(),
        )
    }
}

/// A table of any words as a row of numbers, as C has it, in one word as
/// [`answer_word`] has it.
#[must_use]
pub fn write_row_word(lines: u32, table: &[u32], out: &mut [u8]) -> u64 {
    // SAFETY: as in `contexts_word`.
    unsafe {
        archive::cordafina_write_row(
            lines,
            table.as_ptr(),
            table.len(),
            out.as_mut_ptr(),
            out.len(),
        )
    }
}

/// A table of any words filled from a row, as C has it: 0 or the refusal.
#[must_use]
pub fn read_row_word(lines: u32, row: &[u8], table: &mut [u32]) -> u32 {
    // SAFETY: each pointer is a slice's own, with its length, and so aligned and
    // not null; the table overlaps nothing. The callee keeps neither.
    unsafe {
        archive::cordafina_read_row(
            lines,
            row.as_ptr(),
            row.len(),
            table.as_mut_ptr(),
            table.len(),
        )
    }
}

/// The lowest absent number of a map of ephemerals, 1 to 64, or 0 if there is
/// none: of the lowest bit that is not set, one more than its place.
#[must_use]
pub fn lowest_absent(map: u64) -> u32 {
    // SAFETY: a number goes in and a number comes out.
    unsafe { archive::cordafina_lowest_absent(map) }
}

/// The count in use of a map of ephemerals: how many of its bits are set.
#[must_use]
pub fn in_use(map: u64) -> u32 {
    // SAFETY: as above.
    unsafe { archive::cordafina_in_use(map) }
}
