//! A small Megaco (H.248.1) text gateway, in plain Rust, after document 01 and
//! document 02's requests 10, 5, 2, 1, 6, 11, 12, 3 and 14.
//!
//! The count of lines, one message, a lent table, a lent room of kept replies, lent
//! blocks and a lent reply buffer go in; an [`Answer`] comes out. The whole message is read to a tree before anything
//! runs. The quoted sentences in the comments are those documents'.

pub mod blocks;
pub mod listing;
pub mod map;
pub mod reply;
pub mod room;
pub mod row;
pub mod run;
pub mod sdp;
pub mod table;
pub mod text;

use reply::Reply;
use room::{Lent, Room};
use table::{Lines, Table};
use text::Fault;

/// The least length of a reply buffer.
pub const REPLY_BYTES: usize = 16_640;
/// The greatest length of a message.
pub const MESSAGE_BYTES: usize = 4_096;
/// The greatest length of the gateway's own mId.
pub const OWN_MID_BYTES: usize = 64;

/// What became of a call: taken, with the reply's length, or turned down.
#[derive(Clone, Copy, Debug, PartialEq, Eq)]
pub enum Answer {
    /// The call was taken; so many bytes of the reply buffer were written.
    Taken(usize),
    /// "reply buffer under 16,640 bytes"
    ReplyTooShort,
    /// Table not of the count's words, "or not sound"; blocks not 64, or not sound
    TableUnsound,
    /// Room of kept replies "of the wrong size", or not sound
    RoomUnsound,
    /// "gateway's own mId not an mId as below, or over 64 bytes"
    MidUnfit,
    /// "message of 0 or over 4,096 bytes"
    MessageUnfit,
    /// "8 for a count outside 1..16, before 3"
    LinesUnfit,
}

impl Answer {
    /// The documents' number of a refusal, 0 for a call that was taken.
    pub fn number(&self) -> u32 {
        match self {
            Answer::Taken(_) => 0,
            Answer::MessageUnfit => 1,
            Answer::TableUnsound => 2,
            Answer::ReplyTooShort => 3,
            Answer::MidUnfit => 4,
            Answer::RoomUnsound => 5,
            Answer::LinesUnfit => 8,
        }
    }
}

/// Answers one message, with so many lines fitted.
///
/// A call turned down changes neither `reply` nor `table` nor `room` nor `blocks`. A
/// call taken writes its reply from the start of the buffer, "and bytes past its
/// length stay"; "a message of only K is taken with length 0".
pub fn answer(
    lines: u32,
    message: &[u8],
    table: &mut [u32],
    room: &mut Lent,
    blocks: &mut [u32],
    own: &[u8],
    reply: &mut [u8],
) -> Answer {
    let Some(lines) = Lines::fitted(lines) else {
        return Answer::LinesUnfit;
    };
    if reply.len() < REPLY_BYTES {
        return Answer::ReplyTooShort;
    }
    let Some(mut table) = Table::sound(lines, table) else {
        return Answer::TableUnsound;
    };
    if !blocks::sound(blocks) {
        return Answer::TableUnsound;
    }
    // "5, after 2"
    let Some(mut room) = Room::sound(room) else {
        return Answer::RoomUnsound;
    };
    if own.len() > OWN_MID_BYTES || !text::is_mid(own) {
        return Answer::MidUnfit;
    }
    if message.is_empty() || message.len() > MESSAGE_BYTES {
        return Answer::MessageUnfit;
    }

    let mut out = Reply::new(lines, own);
    match text::read(message) {
        Ok(message) => {
            run::run(&message, &mut table, &mut room, blocks, &mut out);
            if message.transactions().next().is_none() {
                return Answer::Taken(0);
            }
        }
        Err(Fault::Message) => out.message_error(400),
        Err(Fault::Version) => out.message_error(406),
        Err(Fault::Transaction(id)) => out.transaction_error(id, 403),
    }
    let bytes = out.bytes();
    reply[..bytes.len()].copy_from_slice(bytes);
    Answer::Taken(bytes.len())
}

/// Counts one packet of `R/n`: 8, 2 and 9 in this order, or 0.
pub fn packet(
    lines: u32,
    table: &[u32],
    blocks: &mut [u32],
    n: u32,
    arrival: u32,
    stamp: u32,
) -> u32 {
    let Some(lines) = Lines::fitted(lines) else {
        return 8;
    };
    let mut words = table.to_vec();
    let Some(table) = Table::sound(lines, &mut words) else {
        return 2;
    };
    if !blocks::sound(blocks) {
        return 2;
    }
    let place = (n as usize).wrapping_sub(1);
    if place >= table::EPHEMERALS || !table.exists(lines.line_terminations() + place) {
        return 9;
    }
    let block = blocks::updated(blocks::block(blocks, place), arrival, stamp);
    blocks::set(blocks, place, block);
    0
}
