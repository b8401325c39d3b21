//! The figures of the ephemerals (document 02, request 12), as 256 words, four
//! a block: packets, transit, the jitter's low half, its high half.

use crate::table::EPHEMERALS;

/// Words of the blocks.
pub const BLOCK_WORDS: usize = 4 * EPHEMERALS;

/// "J never passes 2^35"
const MOST_JITTER: u64 = 1 << 35;

/// A block: packets, transit, jitter.
pub type Block = (u32, u32, u64);

/// Block k, from 0 on.
pub fn block(words: &[u32], k: usize) -> Block {
    let jitter = u64::from(words[4 * k + 3]) << 32 | u64::from(words[4 * k + 2]);
    (words[4 * k], words[4 * k + 1], jitter)
}

/// Sets block k.
pub fn set(words: &mut [u32], k: usize, (packets, transit, jitter): Block) {
    let block = [packets, transit, jitter as u32, (jitter >> 32) as u32];
    words[4 * k..4 * k + 4].copy_from_slice(&block);
}

/// "2 also for other than 64 blocks, or one with J over 2^35 or with no packets
/// and not zero"
pub fn sound(words: &[u32]) -> bool {
    words.len() == BLOCK_WORDS
        && (0..EPHEMERALS).all(|k| match block(words, k) {
            (0, transit, jitter) => transit == 0 && jitter == 0,
            (_, _, jitter) => jitter <= MOST_JITTER,
        })
}

/// "J becomes J + d − floor((J + 8) / 16)", "packets received, held at
/// 4294967295", "The first packet sets the transit and leaves J at 0."
pub fn updated((packets, old, jitter): Block, arrival: u32, stamp: u32) -> Block {
    let transit = arrival.wrapping_sub(stamp);
    if packets == 0 {
        return (1, transit, 0);
    }
    let d = (transit.wrapping_sub(old) as i32).unsigned_abs();
    let jitter = jitter + u64::from(d) - (jitter + 8) / 16;
    (packets.saturating_add(1), transit, jitter)
}
