//! RC4 as commonly published: the key schedule, then the keystream.

/// `data` combined with the keystream of `key`.
pub fn rc4(key: &[u8], data: &[u8]) -> Vec<u8> {
    let mut s: Vec<usize> = (0..256).collect();
    let mut j = 0;
    for i in 0..256 {
        j = (j + s[i] + usize::from(key[i % key.len()])) % 256;
        s.swap(i, j);
    }

    let (mut i, mut j) = (0, 0);
    data.iter()
        .map(|octet| {
            i = (i + 1) % 256;
            j = (j + s[i]) % 256;
            s.swap(i, j);
            octet ^ s[(s[i] + s[j]) % 256] as u8
        })
        .collect()
}
