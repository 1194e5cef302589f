//! The keyed checksum, from RFC 4757, section 4.

use super::usage::message_type_octets;
use super::{hmac_md5, md5};

pub fn checksum(key: &[u8; 16], usage: u32, data: &[u8]) -> [u8; 16] {
    let ksign = hmac_md5(key, b"signaturekey\0");
    let tmp = md5(&[&message_type_octets(usage), data].concat());
    hmac_md5(&ksign, &tmp)
}
