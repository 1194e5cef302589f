//! Inputs that are the same in every run: counting octets, and pseudo-random
//! ones out of a fixed seed.

/// The same for every run; each test adds its own number.
const SEED: u64 = 0x5243_3448_4d41_4335;

/// A linear congruential generator modulo 2^64, of which only the upper half
/// of the state is handed out.
pub struct Inputs {
    state: u64,
}

impl Inputs {
    pub fn new(number: u64) -> Inputs {
        let mut inputs = Inputs {
            state: SEED.wrapping_add(number),
        };
        // Takes seeds that lie side by side apart.
        for _ in 0..4 {
            inputs.next();
        }
        inputs
    }

    fn next(&mut self) -> u32 {
        self.state = self
            .state
            .wrapping_mul(0x5851_f42d_4c95_7f2d)
            .wrapping_add(0x1405_7b7e_f767_814f);
        (self.state >> 32) as u32
    }

    /// A number from `first` to `last`, both included.
    pub fn number(&mut self, first: usize, last: usize) -> usize {
        first + self.next() as usize % (last - first + 1)
    }

    pub fn octets(&mut self, len: usize) -> Vec<u8> {
        (0..len).map(|_| (self.next() >> 24) as u8).collect()
    }

    /// A key, a confounder or a checksum.
    pub fn array<const LEN: usize>(&mut self) -> [u8; LEN] {
        std::array::from_fn(|_| (self.next() >> 24) as u8)
    }

    /// A sequence number.
    pub fn sequence(&mut self) -> u32 {
        self.next()
    }

    /// A word of a window.
    pub fn word(&mut self) -> u64 {
        u64::from(self.next()) << 32 | u64::from(self.next())
    }

    /// One of these.
    pub fn pick<T: Copy>(&mut self, of: &[T]) -> T {
        of[self.number(0, of.len() - 1)]
    }

    /// The octets somewhere in a longer buffer, and where they start.
    pub fn around(&mut self, octets: &[u8]) -> (Vec<u8>, usize) {
        let (before, after) = (self.number(0, 40), self.number(0, 40));
        let buf = [&self.octets(before)[..], octets, &self.octets(after)].concat();
        (buf, before)
    }

    pub fn units(&mut self, len: usize) -> Vec<u16> {
        (0..len).map(|_| (self.next() >> 16) as u16).collect()
    }
}

/// The octets 0, 1, 2, ... 255, 0, 1, ...
pub fn counting(len: usize) -> Vec<u8> {
    (0..len).map(|i| i as u8).collect()
}

/// Over the limit of a message, by one octet to many; among them the limits of
/// an encrypted message and of a Wrap token, and lengths that are within it in
/// their low 16 or 32 bits only.
pub const OVER_MESSAGE: [usize; 14] = [
    32_769,
    32_770,
    32_792,
    32_793,
    32_801,
    32_802,
    65_535,
    65_536,
    65_537,
    98_304,
    1_000_000,
    1 << 32,
    (1 << 32) + 40,
    1 << 63,
];
