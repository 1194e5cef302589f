//! MD5 in Rust: the 64 steps written out behind new, update and finish, and as
//! one loop over tables.

use super::blocks::{digest_whole, f, h, words, write_digest, INITIAL};

/// MD5 over parts of a message, with the 64 steps written out.
pub struct Md5 {
    state: [u32; 4],
    block: [u8; 64],
    filled: usize,
    len: u64,
}

impl Md5 {
    pub fn new() -> Md5 {
        Md5 {
            state: INITIAL,
            block: [0; 64],
            filled: 0,
            len: 0,
        }
    }

    pub fn update(&mut self, mut part: &[u8]) {
        self.len = self.len.wrapping_add(part.len() as u64);
        if self.filled > 0 {
            let taken = part.len().min(64 - self.filled);
            self.block[self.filled..self.filled + taken].copy_from_slice(&part[..taken]);
            self.filled += taken;
            part = &part[taken..];
            if self.filled < 64 {
                return;
            }
            compress(&mut self.state, &self.block);
        }
        let (blocks, rest) = part.as_chunks();
        for block in blocks {
            compress(&mut self.state, block);
        }
        self.block[..rest.len()].copy_from_slice(rest);
        self.filled = rest.len();
    }

    pub fn finish(mut self, digest: &mut [u8; 16]) {
        self.block[self.filled] = 0x80;
        self.block[self.filled + 1..].fill(0);
        if self.filled >= 56 {
            compress(&mut self.state, &self.block);
            self.block.fill(0);
        }
        self.block[56..].copy_from_slice(&self.len.wrapping_mul(8).to_le_bytes());
        compress(&mut self.state, &self.block);
        write_digest(self.state, digest);
    }
}

#[inline(never)]
pub fn md5(data: &[u8], digest: &mut [u8; 16]) {
    let mut md5 = Md5::new();
    md5.update(data);
    md5.finish(digest);
}

/// The same digest by one loop of 64 steps that looks up addends and shifts.
#[inline(never)]
pub fn md5_table_driven(data: &[u8], digest: &mut [u8; 16]) {
    digest_whole(compress_table_driven, data, digest);
}

/// No bit is set in both halves, so their sum is their or. The compiler adds
/// the halves one by one, which makes MD5 a tenth faster than the or does.
fn g(x: u32, y: u32, z: u32) -> u32 {
    (x & z).wrapping_add(y & !z)
}

fn i(x: u32, y: u32, z: u32) -> u32 {
    y ^ (x | !z)
}

macro_rules! step {
    ($mix:ident, $a:ident, $b:ident, $c:ident, $d:ident, $word:expr, $shift:literal, $addend:literal) => {
        $a = $mix($b, $c, $d)
            .wrapping_add($a)
            .wrapping_add($word)
            .wrapping_add($addend)
            .rotate_left($shift)
            .wrapping_add($b);
    };
}

fn compress(state: &mut [u32; 4], block: &[u8; 64]) {
    let x = words(block);
    let [mut a, mut b, mut c, mut d] = *state;

    step!(f, a, b, c, d, x[0], 7, 0xd76a_a478);
    step!(f, d, a, b, c, x[1], 12, 0xe8c7_b756);
    step!(f, c, d, a, b, x[2], 17, 0x2420_70db);
    step!(f, b, c, d, a, x[3], 22, 0xc1bd_ceee);
    step!(f, a, b, c, d, x[4], 7, 0xf57c_0faf);
    step!(f, d, a, b, c, x[5], 12, 0x4787_c62a);
    step!(f, c, d, a, b, x[6], 17, 0xa830_4613);
    step!(f, b, c, d, a, x[7], 22, 0xfd46_9501);
    step!(f, a, b, c, d, x[8], 7, 0x6980_98d8);
    step!(f, d, a, b, c, x[9], 12, 0x8b44_f7af);
    step!(f, c, d, a, b, x[10], 17, 0xffff_5bb1);
    step!(f, b, c, d, a, x[11], 22, 0x895c_d7be);
    step!(f, a, b, c, d, x[12], 7, 0x6b90_1122);
    step!(f, d, a, b, c, x[13], 12, 0xfd98_7193);
    step!(f, c, d, a, b, x[14], 17, 0xa679_438e);
    step!(f, b, c, d, a, x[15], 22, 0x49b4_0821);

    step!(g, a, b, c, d, x[1], 5, 0xf61e_2562);
    step!(g, d, a, b, c, x[6], 9, 0xc040_b340);
    step!(g, c, d, a, b, x[11], 14, 0x265e_5a51);
    step!(g, b, c, d, a, x[0], 20, 0xe9b6_c7aa);
    step!(g, a, b, c, d, x[5], 5, 0xd62f_105d);
    step!(g, d, a, b, c, x[10], 9, 0x0244_1453);
    step!(g, c, d, a, b, x[15], 14, 0xd8a1_e681);
    step!(g, b, c, d, a, x[4], 20, 0xe7d3_fbc8);
    step!(g, a, b, c, d, x[9], 5, 0x21e1_cde6);
    step!(g, d, a, b, c, x[14], 9, 0xc337_07d6);
    step!(g, c, d, a, b, x[3], 14, 0xf4d5_0d87);
    step!(g, b, c, d, a, x[8], 20, 0x455a_14ed);
    step!(g, a, b, c, d, x[13], 5, 0xa9e3_e905);
    step!(g, d, a, b, c, x[2], 9, 0xfcef_a3f8);
    step!(g, c, d, a, b, x[7], 14, 0x676f_02d9);
    step!(g, b, c, d, a, x[12], 20, 0x8d2a_4c8a);

    step!(h, a, b, c, d, x[5], 4, 0xfffa_3942);
    step!(h, d, a, b, c, x[8], 11, 0x8771_f681);
    step!(h, c, d, a, b, x[11], 16, 0x6d9d_6122);
    step!(h, b, c, d, a, x[14], 23, 0xfde5_380c);
    step!(h, a, b, c, d, x[1], 4, 0xa4be_ea44);
    step!(h, d, a, b, c, x[4], 11, 0x4bde_cfa9);
    step!(h, c, d, a, b, x[7], 16, 0xf6bb_4b60);
    step!(h, b, c, d, a, x[10], 23, 0xbebf_bc70);
    step!(h, a, b, c, d, x[13], 4, 0x289b_7ec6);
    step!(h, d, a, b, c, x[0], 11, 0xeaa1_27fa);
    step!(h, c, d, a, b, x[3], 16, 0xd4ef_3085);
    step!(h, b, c, d, a, x[6], 23, 0x0488_1d05);
    step!(h, a, b, c, d, x[9], 4, 0xd9d4_d039);
    step!(h, d, a, b, c, x[12], 11, 0xe6db_99e5);
    step!(h, c, d, a, b, x[15], 16, 0x1fa2_7cf8);
    step!(h, b, c, d, a, x[2], 23, 0xc4ac_5665);

    step!(i, a, b, c, d, x[0], 6, 0xf429_2244);
    step!(i, d, a, b, c, x[7], 10, 0x432a_ff97);
    step!(i, c, d, a, b, x[14], 15, 0xab94_23a7);
    step!(i, b, c, d, a, x[5], 21, 0xfc93_a039);
    step!(i, a, b, c, d, x[12], 6, 0x655b_59c3);
    step!(i, d, a, b, c, x[3], 10, 0x8f0c_cc92);
    step!(i, c, d, a, b, x[10], 15, 0xffef_f47d);
    step!(i, b, c, d, a, x[1], 21, 0x8584_5dd1);
    step!(i, a, b, c, d, x[8], 6, 0x6fa8_7e4f);
    step!(i, d, a, b, c, x[15], 10, 0xfe2c_e6e0);
    step!(i, c, d, a, b, x[6], 15, 0xa301_4314);
    step!(i, b, c, d, a, x[13], 21, 0x4e08_11a1);
    step!(i, a, b, c, d, x[4], 6, 0xf753_7e82);
    step!(i, d, a, b, c, x[11], 10, 0xbd3a_f235);
    step!(i, c, d, a, b, x[2], 15, 0x2ad7_d2bb);
    step!(i, b, c, d, a, x[9], 21, 0xeb86_d391);

    state[0] = state[0].wrapping_add(a);
    state[1] = state[1].wrapping_add(b);
    state[2] = state[2].wrapping_add(c);
    state[3] = state[3].wrapping_add(d);
}

fn compress_table_driven(state: &mut [u32; 4], block: &[u8; 64]) {
    let x = words(block);
    let [mut a, mut b, mut c, mut d] = *state;
    for step in 0..64 {
        let (mixed, word) = match step / 16 {
            0 => (f(b, c, d), step),
            1 => (g(b, c, d), 5 * step + 1),
            2 => (h(b, c, d), 3 * step + 5),
            _ => (i(b, c, d), 7 * step),
        };
        let sum = mixed
            .wrapping_add(a)
            .wrapping_add(x[word % 16])
            .wrapping_add(ADDENDS[step]);
        let rotated = sum.rotate_left(SHIFTS[step / 16][step % 4]);
        (a, b, c, d) = (d, b.wrapping_add(rotated), b, c);
    }
    for (word, register) in state.iter_mut().zip([a, b, c, d]) {
        *word = word.wrapping_add(register);
    }
}

const SHIFTS: [[u32; 4]; 4] = [
    [7, 12, 17, 22],
    [5, 9, 14, 20],
    [4, 11, 16, 23],
    [6, 10, 15, 21],
];

#[rustfmt::skip]
const ADDENDS: [u32; 64] = [
    0xd76a_a478, 0xe8c7_b756, 0x2420_70db, 0xc1bd_ceee,
    0xf57c_0faf, 0x4787_c62a, 0xa830_4613, 0xfd46_9501,
    0x6980_98d8, 0x8b44_f7af, 0xffff_5bb1, 0x895c_d7be,
    0x6b90_1122, 0xfd98_7193, 0xa679_438e, 0x49b4_0821,
    0xf61e_2562, 0xc040_b340, 0x265e_5a51, 0xe9b6_c7aa,
    0xd62f_105d, 0x0244_1453, 0xd8a1_e681, 0xe7d3_fbc8,
    0x21e1_cde6, 0xc337_07d6, 0xf4d5_0d87, 0x455a_14ed,
    0xa9e3_e905, 0xfcef_a3f8, 0x676f_02d9, 0x8d2a_4c8a,
    0xfffa_3942, 0x8771_f681, 0x6d9d_6122, 0xfde5_380c,
    0xa4be_ea44, 0x4bde_cfa9, 0xf6bb_4b60, 0xbebf_bc70,
    0x289b_7ec6, 0xeaa1_27fa, 0xd4ef_3085, 0x0488_1d05,
    0xd9d4_d039, 0xe6db_99e5, 0x1fa2_7cf8, 0xc4ac_5665,
    0xf429_2244, 0x432a_ff97, 0xab94_23a7, 0xfc93_a039,
    0x655b_59c3, 0x8f0c_cc92, 0xffef_f47d, 0x8584_5dd1,
    0x6fa8_7e4f, 0xfe2c_e6e0, 0xa301_4314, 0x4e08_11a1,
    0xf753_7e82, 0xbd3a_f235, 0x2ad7_d2bb, 0xeb86_d391,
];
