//! HMAC-MD5 in Rust, over the MD5 that takes a message in parts.

use super::md5::Md5;

#[inline(never)]
pub fn hmac_md5(key: &[u8], text: &[u8], digest: &mut [u8; 16]) {
    let mut pad = [0; 64];
    if key.len() > 64 {
        let mut hashed = [0; 16];
        super::md5(key, &mut hashed);
        pad[..16].copy_from_slice(&hashed);
    } else {
        pad[..key.len()].copy_from_slice(key);
    }

    let mut inner = [0; 16];
    let mut md5 = Md5::new();
    md5.update(&pad.map(|octet| octet ^ 0x36));
    md5.update(text);
    md5.finish(&mut inner);

    let mut md5 = Md5::new();
    md5.update(&pad.map(|octet| octet ^ 0x5c));
    md5.update(&inner);
    md5.finish(digest);
}
