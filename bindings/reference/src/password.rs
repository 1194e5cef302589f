//! The key of a password, from RFC 4757, section 2.

use super::md4;

/// Each unit is two octets, low-order first; nothing closes the password.
pub fn password_key(units: &[u16]) -> [u8; 16] {
    let octets: Vec<u8> = units
        .iter()
        .flat_map(|&unit| [(unit % 256) as u8, (unit / 256) as u8])
        .collect();
    md4(&octets)
}
