//! MD5 from RFC 1321.

use super::padding;

/// The rotations of each round; they repeat every four steps (RFC 1321, 3.4).
const SHIFTS: [[u32; 4]; 4] = [
    [7, 12, 17, 22],
    [5, 9, 14, 20],
    [4, 11, 16, 23],
    [6, 10, 15, 21],
];

/// The table T by its definition: 4294967296 times the absolute sine of the
/// step's number, the number counted from 1 and taken as radians.
fn addends() -> [u32; 64] {
    std::array::from_fn(|i| (4_294_967_296.0 * (i as f64 + 1.0).sin().abs()) as u32)
}

pub fn md5(message: &[u8]) -> [u8; 16] {
    let addends = addends();
    let mut state = [0x6745_2301, 0xefcd_ab89, 0x98ba_dcfe, 0x1032_5476u32];

    for block in padding::blocks(message) {
        let [mut a, mut b, mut c, mut d] = state;
        for step in 0..64 {
            let round = step / 16;
            let (mixed, word) = match round {
                0 => ((b & c) | (!b & d), step),
                1 => ((b & d) | (c & !d), (5 * step + 1) % 16),
                2 => (b ^ c ^ d, (3 * step + 5) % 16),
                _ => (c ^ (b | !d), 7 * step % 16),
            };
            let sum = a
                .wrapping_add(mixed)
                .wrapping_add(block[word])
                .wrapping_add(addends[step]);
            let rotated = sum.rotate_left(SHIFTS[round][step % 4]);
            // The RFC names the registers anew at each step.
            (a, b, c, d) = (d, b.wrapping_add(rotated), b, c);
        }
        for (word, register) in state.iter_mut().zip([a, b, c, d]) {
            *word = word.wrapping_add(register);
        }
    }

    padding::digest(state)
}
