//! HMAC-MD5 from RFC 2104.

use super::md5;

/// B in the RFC: the octets of a block of MD5.
const BLOCK: usize = 64;

pub fn hmac_md5(key: &[u8], text: &[u8]) -> [u8; 16] {
    let mut key = if key.len() > BLOCK {
        md5(key).to_vec()
    } else {
        key.to_vec()
    };
    key.resize(BLOCK, 0);

    let keyed = |pad: u8, rest: &[u8]| {
        let mut message: Vec<u8> = key.iter().map(|octet| octet ^ pad).collect();
        message.extend_from_slice(rest);
        md5(&message)
    };
    let inner = keyed(0x36, text);
    keyed(0x5c, &inner)
}
