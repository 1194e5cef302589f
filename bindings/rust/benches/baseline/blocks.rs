//! What MD4 and MD5 share: the first state, words, the padding of a whole
//! message and the digest's octets.

pub const INITIAL: [u32; 4] = [0x6745_2301, 0xefcd_ab89, 0x98ba_dcfe, 0x1032_5476];

/// The digest of a whole message, block by block.
#[inline(always)]
pub fn digest_whole(
    compress: impl Fn(&mut [u32; 4], &[u8; 64]),
    data: &[u8],
    digest: &mut [u8; 16],
) {
    let mut state = INITIAL;
    let (blocks, rest) = data.as_chunks();
    for block in blocks {
        compress(&mut state, block);
    }
    let mut last = [0; 64];
    last[..rest.len()].copy_from_slice(rest);
    last[rest.len()] = 0x80;
    if rest.len() >= 56 {
        compress(&mut state, &last);
        last.fill(0);
    }
    last[56..].copy_from_slice(&(data.len() as u64).wrapping_mul(8).to_le_bytes());
    compress(&mut state, &last);
    write_digest(state, digest);
}

pub fn write_digest(state: [u32; 4], digest: &mut [u8; 16]) {
    for (octets, word) in digest.chunks_exact_mut(4).zip(state) {
        octets.copy_from_slice(&word.to_le_bytes());
    }
}

pub fn words(block: &[u8; 64]) -> [u32; 16] {
    let (words, _) = block.as_chunks();
    std::array::from_fn(|k| u32::from_le_bytes(words[k]))
}

pub fn f(x: u32, y: u32, z: u32) -> u32 {
    z ^ (x & (y ^ z))
}

pub fn h(x: u32, y: u32, z: u32) -> u32 {
    x ^ y ^ z
}
