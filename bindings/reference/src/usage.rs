//! The message types T from the list in RFC 4757, section 3, and the salts
//! that section 5 makes of them.

/// The numbers of the usages.
pub const USAGES: std::ops::RangeInclusive<u32> = 1..=15;

/// T of each item of the list, in its order.
const MESSAGE_TYPES: [u32; 15] = [1, 2, 8, 4, 5, 6, 7, 8, 8, 10, 11, 12, 13, 14, 15];

/// T of a usage.
pub fn message_type(usage: u32) -> u32 {
    assert!(USAGES.contains(&usage));
    MESSAGE_TYPES[usage as usize - 1]
}

/// T as a little-endian four-octet integer.
pub fn message_type_octets(usage: u32) -> [u8; 4] {
    let t = message_type(usage);
    std::array::from_fn(|i| (t >> (8 * i)) as u8)
}

/// What K1 is the HMAC of: T, for export behind the ten octets of L40.
pub fn salt(export: bool, usage: u32) -> Vec<u8> {
    let text: &[u8] = if export { b"fortybits\0" } else { b"" };
    [text, &message_type_octets(usage)].concat()
}
