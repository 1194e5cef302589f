//! What the calls over a lent buffer must answer and leave, for any arguments.

use super::message::{Terms, HEADER};
use super::usage::USAGES;

/// The refusal number, the length answered and the buffer afterwards.
pub struct Outcome {
    pub number: u32,
    pub len: usize,
    pub buf: Vec<u8>,
}

impl Outcome {
    pub fn refused(number: u32, buf: &[u8]) -> Outcome {
        let buf = buf.to_vec();
        Outcome {
            number,
            len: 0,
            buf,
        }
    }

    pub fn done(len: usize, buf: &[u8], start: usize, octets: &[u8]) -> Outcome {
        let mut buf = buf.to_vec();
        buf[start..][..octets.len()].copy_from_slice(octets);
        Outcome {
            number: 0,
            len,
            buf,
        }
    }
}

/// Whether `length` octets from `start` lie inside a buffer of `buf_len`, the
/// sum as a whole number.
pub(crate) fn is_inside(start: usize, length: usize, buf_len: usize) -> bool {
    start as u128 + length as u128 <= buf_len as u128
}

/// The data stand after the header's place.
pub fn encrypt(
    terms: &Terms,
    confounder: &[u8; 8],
    buf: &[u8],
    start: usize,
    data_len: usize,
) -> Outcome {
    if data_len > 32_768 {
        Outcome::refused(1, buf)
    } else if !is_inside(start, HEADER + data_len, buf.len()) {
        Outcome::refused(2, buf)
    } else if !USAGES.contains(&terms.usage) {
        Outcome::refused(3, buf)
    } else {
        let message = terms.encrypt(confounder, &buf[start + HEADER..][..data_len]);
        Outcome::done(message.len(), buf, start, &message)
    }
}

/// The checksum stays as it came.
pub fn decrypt(terms: &Terms, buf: &[u8], start: usize, length: usize) -> Outcome {
    if !(HEADER..=HEADER + 32_768).contains(&length) {
        return Outcome::refused(1, buf);
    }
    if !is_inside(start, length, buf.len()) {
        return Outcome::refused(2, buf);
    }
    if !USAGES.contains(&terms.usage) {
        return Outcome::refused(3, buf);
    }
    match terms.decrypt(&buf[start..][..length]) {
        Some(plain) => Outcome::done(length - HEADER, buf, start + 16, &plain),
        None => Outcome::refused(6, buf),
    }
}
