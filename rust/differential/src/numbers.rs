//! Numbers from a seed (SplitMix64).

use std::ops::RangeInclusive;

#[derive(Clone)]
pub struct Numbers(u64);

impl Numbers {
    pub fn new(seed: u64) -> Self {
        Numbers(seed)
    }

    pub fn word(&mut self) -> u64 {
        self.0 = self.0.wrapping_add(0x9E37_79B9_7F4A_7C15);
        let mut word = self.0;
        word = (word ^ (word >> 30)).wrapping_mul(0xBF58_476D_1CE4_E5B9);
        word = (word ^ (word >> 27)).wrapping_mul(0x94D0_49BB_1331_11EB);
        word ^ (word >> 31)
    }

    pub fn byte(&mut self) -> u8 {
        self.word() as u8
    }

    /// A number under `bound`, which is not 0.
    pub fn under(&mut self, bound: usize) -> usize {
        ((self.word() >> 32) as usize) % bound
    }

    pub fn within(&mut self, range: RangeInclusive<usize>) -> usize {
        range.start() + self.under(range.end() - range.start() + 1)
    }

    pub fn one_in(&mut self, many: usize) -> bool {
        self.under(many) == 0
    }

    pub fn pick<T: Copy>(&mut self, from: &[T]) -> T {
        from[self.under(from.len())]
    }

    /// So many bytes, each one of `from`.
    pub fn bytes(&mut self, from: &[u8], length: usize) -> Vec<u8> {
        (0..length).map(|_| self.pick(from)).collect()
    }

    /// A part of `0..length`, of at most `most`.
    pub fn part(&mut self, length: usize, most: usize) -> std::ops::Range<usize> {
        let start = self.under(length + 1);
        let end = length.min(start + self.within(0..=most));
        start..end
    }
}
