//! A table with its room, own mId and reply buffer.

use crate::layout::{MID_BYTES, REPLY_BYTES};
use crate::{answer, packet, Blocks, Refusal, Room, Table};

/// A table with the room of kept replies, the blocks, the own mId and the reply
/// buffer that its calls need: some 58,000 bytes, in place.
#[derive(Clone)]
pub struct Gateway {
    table: Table,
    room: Room,
    blocks: Blocks,
    own: [u8; MID_BYTES],
    own_length: usize,
    reply: [u8; REPLY_BYTES],
}

impl Gateway {
    /// A gateway of this own mId, with a fresh table of eight lines.
    ///
    /// # Errors
    /// `MidUnfit` if it is not an mId, or over 64 bytes.
    pub fn new(own: &[u8]) -> Result<Self, Refusal> {
        Gateway::with_table(own, Table::fresh())
    }

    /// The same with a table of another count of lines, and fresh blocks.
    ///
    /// # Errors
    /// `MidUnfit`, as above.
    pub fn with_table(own: &[u8], table: Table) -> Result<Self, Refusal> {
        Gateway::with_state(own, table, Blocks::fresh())
    }

    /// The same with a table and blocks that were kept.
    ///
    /// # Errors
    /// `MidUnfit`, as above.
    pub fn with_state(own: &[u8], table: Table, blocks: Blocks) -> Result<Self, Refusal> {
        let mut gateway = Gateway {
            table,
            room: Room::empty(),
            blocks,
            own: [0; MID_BYTES],
            own_length: own.len(),
            reply: [0; REPLY_BYTES],
        };
        let place = gateway.own.get_mut(..own.len()).ok_or(Refusal::MidUnfit)?;
        place.copy_from_slice(own);
        // A message of no bytes is the last refusal to be judged.
        match gateway.answer(b"") {
            Err(refusal) if refusal != Refusal::MessageUnfit => Err(refusal),
            _ => Ok(gateway),
        }
    }

    /// The same with a room that was kept.
    #[must_use]
    pub fn with_room(self, room: Room) -> Self {
        Gateway { room, ..self }
    }

    /// Answers one message: its reply, until the next call.
    ///
    /// # Errors
    /// `MessageUnfit` if the message has 0 or over 4,096 bytes. Any other message
    /// has a reply, line noise too; that of acknowledgements alone is empty.
    pub fn answer(&mut self, message: &[u8]) -> Result<&[u8], Refusal> {
        let own = &self.own[..self.own_length];
        let (table, room, blocks) = (&mut self.table, &mut self.room, &mut self.blocks);
        let length = answer(message, table, room, blocks, own, &mut self.reply)?;
        Ok(&self.reply[..length])
    }

    /// The replies that it keeps.
    #[must_use]
    pub const fn room(&self) -> &Room {
        &self.room
    }

    /// Counts one packet of `R/n`: when it came, and its RTP time.
    ///
    /// # Errors
    /// `EphemeralAbsent` for an ephemeral that does not exist, or outside 1 to 64.
    pub fn packet(&mut self, n: u32, arrival: u32, stamp: u32) -> Result<(), Refusal> {
        packet(&self.table, &mut self.blocks, n, arrival, stamp)
    }

    /// What the gateway holds.
    #[must_use]
    pub const fn table(&self) -> &Table {
        &self.table
    }

    /// The figures of its ephemerals.
    #[must_use]
    pub const fn blocks(&self) -> &Blocks {
        &self.blocks
    }
}
