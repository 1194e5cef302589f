//! The padding that MD4 and MD5 share (RFC 1320 and RFC 1321, 3.1 and 3.2).

/// The padded message as blocks of 16 words.
pub fn blocks(message: &[u8]) -> Vec<[u32; 16]> {
    let bits = (message.len() as u64).wrapping_mul(8);
    let mut padded = message.to_vec();
    padded.push(0x80);
    while padded.len() % 64 != 56 {
        padded.push(0);
    }
    padded.extend_from_slice(&bits.to_le_bytes());

    padded
        .chunks_exact(64)
        .map(|block| {
            std::array::from_fn(|k| {
                (0..4).fold(0, |word, i| word | u32::from(block[4 * k + i]) << (8 * i))
            })
        })
        .collect()
}

/// The four words of the state, low-order octet first.
pub fn digest(state: [u32; 4]) -> [u8; 16] {
    std::array::from_fn(|i| (state[i / 4] >> (8 * (i % 4))) as u8)
}
