//! Encrypted messages of full strength in Rust, over the HMAC and the RC4 here:
//! RFC 4757, section 5.

use super::{hmac_md5, rc4};

/// Decrypts a whole message in place, for a message type of one octet.
#[inline(never)]
pub fn decrypt(key: &[u8; 16], message_type: u8, message: &mut [u8]) -> bool {
    let (checksum, text) = message.split_at_mut(16);
    let (mut k1, mut k3, mut expected) = ([0; 16], [0; 16], [0; 16]);
    hmac_md5(key, &[message_type, 0, 0, 0], &mut k1);
    hmac_md5(&k1, checksum, &mut k3);
    rc4(&k3, text);
    hmac_md5(&k1, text, &mut expected);
    expected == *checksum
}
