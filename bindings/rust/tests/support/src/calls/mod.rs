//! The functions of the archive on slices, so that arguments get through that
//! the safe functions would not take. Nothing that is lent may overlap.

mod frames;
mod tokens;
mod window;

pub use frames::{framed_wrap_lead, FRAMED};
pub use tokens::{context, mic_read, mic_write, wrap_open, wrap_write, Flags, TokenCalls, TOKENS};
pub use window::{
    receive_mic, receive_wrap, window_bill, window_missing, window_new, ReceiveCalls, RECEIVE,
    RECEIVE_FRAMED,
};

use rc4hmac::raw;
use reference::{Outcome, Terms};

/// What out values hold before a call.
const OCTETS_BEFORE: [u8; 16] = [0xa5; 16];
const LEN_BEFORE: usize = 0xa5a5_a5a5_a5a5_a5a5;

pub fn password_key(units: &[u16]) -> (u32, [u8; 16]) {
    let mut key = OCTETS_BEFORE;
    // SAFETY: a slice and a key of its own.
    let number = unsafe { raw::rc4hmac_password_key(units.as_ptr(), units.len(), &mut key) };
    (number, key)
}

pub fn checksum(key: &[u8; 16], usage: u32, data: &[u8]) -> (u32, [u8; 16]) {
    let mut checksum = OCTETS_BEFORE;
    // SAFETY: the tests lend areas that do not overlap, here and below.
    let number =
        unsafe { raw::rc4hmac_checksum(key, usage, data.as_ptr(), data.len(), &mut checksum) };
    (number, checksum)
}

pub fn checksum_test(key: &[u8; 16], usage: u32, data: &[u8], checksum: &[u8]) -> u32 {
    unsafe {
        raw::rc4hmac_checksum_test(
            key,
            usage,
            data.as_ptr(),
            data.len(),
            checksum.as_ptr(),
            checksum.len(),
        )
    }
}

pub fn encrypt(
    terms: &Terms,
    confounder: &[u8; 8],
    buf: &[u8],
    start: usize,
    data_len: usize,
) -> Outcome {
    encrypt_with(terms.export.into(), terms, confounder, buf, start, data_len)
}

pub fn decrypt(terms: &Terms, buf: &[u8], start: usize, length: usize) -> Outcome {
    decrypt_with(terms.export.into(), terms, buf, start, length)
}

/// With the argument `export_strength` itself, whatever the terms say.
pub fn encrypt_with(
    export_strength: u32,
    terms: &Terms,
    confounder: &[u8; 8],
    buf: &[u8],
    start: usize,
    data_len: usize,
) -> Outcome {
    let (mut buf, mut len) = (buf.to_vec(), LEN_BEFORE);
    let number = unsafe {
        raw::rc4hmac_encrypt(
            &terms.key,
            export_strength,
            terms.usage,
            confounder,
            buf.as_mut_ptr(),
            buf.len(),
            start,
            data_len,
            &mut len,
        )
    };
    Outcome { number, len, buf }
}

/// With the argument `export_strength` itself, whatever the terms say.
pub fn decrypt_with(
    export_strength: u32,
    terms: &Terms,
    buf: &[u8],
    start: usize,
    length: usize,
) -> Outcome {
    let (mut buf, mut len) = (buf.to_vec(), LEN_BEFORE);
    let number = unsafe {
        raw::rc4hmac_decrypt(
            &terms.key,
            export_strength,
            terms.usage,
            buf.as_mut_ptr(),
            buf.len(),
            start,
            length,
            &mut len,
        )
    };
    Outcome { number, len, buf }
}
