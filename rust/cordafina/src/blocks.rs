//! The figures of the ephemerals.

use crate::layout::{BLOCK_WORDS, EPHEMERALS};
use crate::{packet, Refusal, Table};

/// The figures of one ephemeral (RFC 1889 A.8).
#[derive(Clone, Copy, Debug, Default, PartialEq, Eq)]
pub struct Block {
    /// Packets received, held at 4294967295.
    pub packets: u32,
    /// Arrival less RTP time of the last packet, modulo 2^32.
    pub transit: u32,
    /// The jitter, of which a reply tells the sixteenth part; at most 2^35.
    pub jitter: u64,
}

impl Block {
    /// The jitter that a reply tells.
    #[must_use]
    pub const fn reported(&self) -> u64 {
        self.jitter / 16
    }
}

/// The blocks of the 64 ephemerals, lent to every call beside the table. They
/// are always sound: made so, and calls keep them so.
#[derive(Clone, Debug, PartialEq, Eq)]
pub struct Blocks {
    words: [u32; BLOCK_WORDS],
}

impl Blocks {
    /// Blocks of which none has had a packet.
    #[must_use]
    pub const fn fresh() -> Self {
        Blocks {
            words: [0; BLOCK_WORDS],
        }
    }

    /// The block of `R/n`; `None` for a number outside 1 to 64.
    #[must_use]
    pub fn block(&self, n: u32) -> Option<Block> {
        let at = 4 * (n as usize).checked_sub(1).filter(|k| *k < EPHEMERALS)?;
        Some(Block {
            packets: self.words[at],
            transit: self.words[at + 1],
            jitter: u64::from(self.words[at + 2]) | u64::from(self.words[at + 3]) << 32,
        })
    }

    /// The words, four a block: packets, transit, the jitter's low half, its
    /// high half.
    #[must_use]
    pub const fn words(&self) -> &[u32; BLOCK_WORDS] {
        &self.words
    }

    pub(crate) fn lent(&mut self) -> &mut [u32] {
        &mut self.words
    }
}

impl TryFrom<&[u32]> for Blocks {
    type Error = Refusal;

    /// Blocks that were kept, as [`words`](Self::words) gave them; `TableUnsound` if
    /// they are not 64 sound ones.
    fn try_from(words: &[u32]) -> Result<Self, Refusal> {
        let mut blocks = Blocks {
            words: words.try_into().map_err(|_| Refusal::TableUnsound)?,
        };
        // There is no R/0: sound blocks are told so, and nothing is changed.
        match packet(&Table::fresh(), &mut blocks, 0, 0, 0) {
            Err(Refusal::EphemeralAbsent) => Ok(blocks),
            refused => Err(refused.err().unwrap_or(Refusal::TableUnsound)),
        }
    }
}
