//! MD4 from RFC 1320.

use super::padding;

/// The word of the block that each step takes, by round (RFC 1320, 3.4).
const WORDS: [[usize; 16]; 3] = [
    [0, 1, 2, 3, 4, 5, 6, 7, 8, 9, 10, 11, 12, 13, 14, 15],
    [0, 4, 8, 12, 1, 5, 9, 13, 2, 6, 10, 14, 3, 7, 11, 15],
    [0, 8, 4, 12, 2, 10, 6, 14, 1, 9, 5, 13, 3, 11, 7, 15],
];

/// The rotations of each round; they repeat every four steps.
const SHIFTS: [[u32; 4]; 3] = [[3, 7, 11, 19], [3, 5, 9, 13], [3, 9, 11, 15]];

/// The addends of the rounds: the square roots of 2 and 3 in the second and
/// the third.
const ADDENDS: [u32; 3] = [0, 0x5a82_7999, 0x6ed9_eba1];

pub fn md4(message: &[u8]) -> [u8; 16] {
    let mut state = [0x6745_2301, 0xefcd_ab89, 0x98ba_dcfe, 0x1032_5476u32];

    for block in padding::blocks(message) {
        let [mut a, mut b, mut c, mut d] = state;
        for round in 0..3 {
            for step in 0..16 {
                let mixed = match round {
                    0 => (b & c) | (!b & d),
                    1 => (b & c) | (b & d) | (c & d),
                    _ => b ^ c ^ d,
                };
                let sum = a
                    .wrapping_add(mixed)
                    .wrapping_add(block[WORDS[round][step]])
                    .wrapping_add(ADDENDS[round]);
                // The RFC names the registers anew at each step.
                (a, b, c, d) = (d, sum.rotate_left(SHIFTS[round][step % 4]), b, c);
            }
        }
        for (word, register) in state.iter_mut().zip([a, b, c, d]) {
            *word = word.wrapping_add(register);
        }
    }

    padding::digest(state)
}
