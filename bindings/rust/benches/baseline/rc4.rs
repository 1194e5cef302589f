//! RC4 in Rust: the key schedule, then one octet of keystream at a time.

#[inline(always)]
fn key_schedule(key: &[u8]) -> [u8; 256] {
    let mut s: [u8; 256] = std::array::from_fn(|i| i as u8);
    let mut j = 0u8;
    for i in 0..256 {
        j = j.wrapping_add(s[i]).wrapping_add(key[i % key.len()]);
        s.swap(i, usize::from(j));
    }
    s
}

#[inline(never)]
pub fn rc4(key: &[u8], data: &mut [u8]) {
    let mut s = key_schedule(key);
    let (mut i, mut j) = (0u8, 0u8);
    for octet in data {
        i = i.wrapping_add(1);
        j = j.wrapping_add(s[usize::from(i)]);
        s.swap(usize::from(i), usize::from(j));
        let t = s[usize::from(i)].wrapping_add(s[usize::from(j)]);
        *octet ^= s[usize::from(t)];
    }
}

/// The same with the next S[i] read before the places of this octet are
/// stored, as the library reads it.
#[inline(never)]
pub fn rc4_reading_ahead(key: &[u8], data: &mut [u8]) {
    let mut s = key_schedule(key);
    let (mut i, mut j) = (0u8, 0u8);
    let mut a = s[1];
    for octet in data {
        i = i.wrapping_add(1);
        j = j.wrapping_add(a);
        let b = s[usize::from(j)];
        let ahead = i.wrapping_add(1);
        let next = s[usize::from(ahead)];
        s[usize::from(i)] = b;
        s[usize::from(j)] = a;
        *octet ^= s[usize::from(a.wrapping_add(b))];
        if j != ahead {
            a = next;
        }
    }
}
