//! Any words of a window, and numbers to bill in it.

use reference::Words;

use crate::Inputs;

/// In the upper half of the first two words: taken modulo 2^32.
pub const HIGH: [u64; 5] = [0, 1 << 32, 1 << 63, 0xffff_ffff << 32, 0xa5a5_5a5a << 32];

impl Inputs {
    /// The next expected distance is often around 0, 64, 2^31 or 2^32.
    pub fn words(&mut self) -> Words {
        let any = [self.word(), self.word(), self.word()];
        let around = self.pick(&[0, 1, 64, 65, 128, 1 << 16, 1 << 31, 1 << 32]);
        let next = match self.number(0, 4) {
            0 => any[1],
            _ => (around + self.number(0, 70) as u64).saturating_sub(self.number(0, 70) as u64),
        };
        let mark = 1 << self.number(0, 63);
        [
            self.pick(&[0, 1 << 31, 0xffff_fffd, any[0]]) ^ self.pick(&HIGH),
            next & 0xffff_ffff | self.pick(&HIGH),
            self.pick(&[0, u64::MAX, mark, !mark, any[1], any[1], any[1]]),
            self.pick(&[0, u64::MAX, 0xffff_ffff, any[2]]),
        ]
    }

    /// A number whose distance is about the next expected one of these words,
    /// or at an end, or any.
    pub fn sequence_near(&mut self, words: &Words) -> u32 {
        let (first, next) = (words[0] as u32, words[1] as u32);
        let any = self.sequence();
        let distance = match self.number(0, 7) {
            0 => self.pick(&[0, 1 << 31, (1 << 31) - 1, u32::MAX]),
            1 => any,
            2 => next,
            3 => next.wrapping_add(self.number(1, 67) as u32),
            _ => next.wrapping_sub(self.number(1, 67) as u32),
        };
        first.wrapping_add(distance)
    }
}
