//! MD4 in Rust, with the 48 steps written out.

use super::blocks::{digest_whole, f, h, words};

#[inline(never)]
pub fn md4(data: &[u8], digest: &mut [u8; 16]) {
    digest_whole(compress, data, digest);
}

fn g(x: u32, y: u32, z: u32) -> u32 {
    (x & y) | (z & (x | y))
}

macro_rules! step {
    ($mix:ident, $a:ident, $b:ident, $c:ident, $d:ident, $word:expr, $shift:literal, $addend:literal) => {
        $a = $mix($b, $c, $d)
            .wrapping_add($a)
            .wrapping_add($word)
            .wrapping_add($addend)
            .rotate_left($shift);
    };
}

fn compress(state: &mut [u32; 4], block: &[u8; 64]) {
    let x = words(block);
    let [mut a, mut b, mut c, mut d] = *state;

    step!(f, a, b, c, d, x[0], 3, 0);
    step!(f, d, a, b, c, x[1], 7, 0);
    step!(f, c, d, a, b, x[2], 11, 0);
    step!(f, b, c, d, a, x[3], 19, 0);
    step!(f, a, b, c, d, x[4], 3, 0);
    step!(f, d, a, b, c, x[5], 7, 0);
    step!(f, c, d, a, b, x[6], 11, 0);
    step!(f, b, c, d, a, x[7], 19, 0);
    step!(f, a, b, c, d, x[8], 3, 0);
    step!(f, d, a, b, c, x[9], 7, 0);
    step!(f, c, d, a, b, x[10], 11, 0);
    step!(f, b, c, d, a, x[11], 19, 0);
    step!(f, a, b, c, d, x[12], 3, 0);
    step!(f, d, a, b, c, x[13], 7, 0);
    step!(f, c, d, a, b, x[14], 11, 0);
    step!(f, b, c, d, a, x[15], 19, 0);

    step!(g, a, b, c, d, x[0], 3, 0x5a82_7999);
    step!(g, d, a, b, c, x[4], 5, 0x5a82_7999);
    step!(g, c, d, a, b, x[8], 9, 0x5a82_7999);
    step!(g, b, c, d, a, x[12], 13, 0x5a82_7999);
    step!(g, a, b, c, d, x[1], 3, 0x5a82_7999);
    step!(g, d, a, b, c, x[5], 5, 0x5a82_7999);
    step!(g, c, d, a, b, x[9], 9, 0x5a82_7999);
    step!(g, b, c, d, a, x[13], 13, 0x5a82_7999);
    step!(g, a, b, c, d, x[2], 3, 0x5a82_7999);
    step!(g, d, a, b, c, x[6], 5, 0x5a82_7999);
    step!(g, c, d, a, b, x[10], 9, 0x5a82_7999);
    step!(g, b, c, d, a, x[14], 13, 0x5a82_7999);
    step!(g, a, b, c, d, x[3], 3, 0x5a82_7999);
    step!(g, d, a, b, c, x[7], 5, 0x5a82_7999);
    step!(g, c, d, a, b, x[11], 9, 0x5a82_7999);
    step!(g, b, c, d, a, x[15], 13, 0x5a82_7999);

    step!(h, a, b, c, d, x[0], 3, 0x6ed9_eba1);
    step!(h, d, a, b, c, x[8], 9, 0x6ed9_eba1);
    step!(h, c, d, a, b, x[4], 11, 0x6ed9_eba1);
    step!(h, b, c, d, a, x[12], 15, 0x6ed9_eba1);
    step!(h, a, b, c, d, x[2], 3, 0x6ed9_eba1);
    step!(h, d, a, b, c, x[10], 9, 0x6ed9_eba1);
    step!(h, c, d, a, b, x[6], 11, 0x6ed9_eba1);
    step!(h, b, c, d, a, x[14], 15, 0x6ed9_eba1);
    step!(h, a, b, c, d, x[1], 3, 0x6ed9_eba1);
    step!(h, d, a, b, c, x[9], 9, 0x6ed9_eba1);
    step!(h, c, d, a, b, x[5], 11, 0x6ed9_eba1);
    step!(h, b, c, d, a, x[13], 15, 0x6ed9_eba1);
    step!(h, a, b, c, d, x[3], 3, 0x6ed9_eba1);
    step!(h, d, a, b, c, x[11], 9, 0x6ed9_eba1);
    step!(h, c, d, a, b, x[7], 11, 0x6ed9_eba1);
    step!(h, b, c, d, a, x[15], 15, 0x6ed9_eba1);

    state[0] = state[0].wrapping_add(a);
    state[1] = state[1].wrapping_add(b);
    state[2] = state[2].wrapping_add(c);
    state[3] = state[3].wrapping_add(d);
}
