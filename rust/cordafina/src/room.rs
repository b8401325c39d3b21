//! The lent room of kept replies.

use crate::layout::{table_words, BLOCK_WORDS, REPLY_BYTES, ROOM_BYTES, ROOM_WORDS};
use crate::{answer_word, Refusal};
use core::fmt;

/// The room in which the gateway keeps its last 16 replies, so that a request
/// that is sent again gets the same bytes and is not run twice: some 34,000
/// bytes, in place. `docs/REFERENCE.md`, section 18, has the layout.
#[derive(Clone, PartialEq, Eq)]
pub struct Room {
    words: [u32; ROOM_WORDS],
    bytes: [u8; ROOM_BYTES],
}

impl Room {
    /// A room that keeps nothing.
    #[must_use]
    pub const fn empty() -> Self {
        Room {
            words: [0; ROOM_WORDS],
            bytes: [0; ROOM_BYTES],
        }
    }

    /// Its words and bytes, to be kept; [`TryFrom`] gives the room back.
    #[must_use]
    pub const fn parts(&self) -> (&[u32; ROOM_WORDS], &[u8; ROOM_BYTES]) {
        (&self.words, &self.bytes)
    }

    /// How many replies are kept.
    #[must_use]
    pub fn kept(&self) -> usize {
        self.words[..16]
            .iter()
            .take_while(|&&slot| slot != 0)
            .count()
    }

    pub(crate) fn lent(&mut self) -> (&mut [u32], &mut [u8]) {
        (&mut self.words, &mut self.bytes)
    }
}

impl Default for Room {
    fn default() -> Self {
        Room::empty()
    }
}

impl fmt::Debug for Room {
    fn fmt(&self, f: &mut fmt::Formatter) -> fmt::Result {
        f.debug_struct("Room")
            .field("kept", &self.kept())
            .finish_non_exhaustive()
    }
}

impl TryFrom<(&[u32], &[u8])> for Room {
    type Error = Refusal;

    /// A room that was kept, as [`parts`](Self::parts) gave it; `RoomUnsound` if it is
    /// not of the size of one, or not sound.
    fn try_from((words, bytes): (&[u32], &[u8])) -> Result<Self, Refusal> {
        let mut room = Room {
            words: words.try_into().map_err(|_| Refusal::RoomUnsound)?,
            bytes: bytes.try_into().map_err(|_| Refusal::RoomUnsound)?,
        };
        // No bytes are no mId: a sound room is told so, and nothing is changed.
        let (words, bytes) = room.lent();
        let (mut table, mut blocks) = ([0; table_words(1)], [0; BLOCK_WORDS]);
        let mut reply = [0; REPLY_BYTES];
        let word = answer_word(
            1,
            b"",
            &mut table,
            words,
            bytes,
            &mut blocks,
            b"",
            &mut reply,
        );
        match Refusal::or_length(word) {
            Err(Refusal::MidUnfit) => Ok(room),
            refused => Err(refused.err().unwrap_or(Refusal::RoomUnsound)),
        }
    }
}
