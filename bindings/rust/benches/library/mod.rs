//! The library's functions in the shape of the baselines', each one call into
//! the archive.

// Each bench uses its own share of this module.
#![allow(dead_code)]

use rc4hmac::raw;

#[inline(always)]
pub fn md4(data: &[u8], digest: &mut [u8; 16]) {
    // SAFETY: a slice and an array that the borrows keep apart.
    let answer = unsafe { raw::rc4hmac_md4(data.as_ptr(), data.len(), digest) };
    assert_eq!(answer, 0);
}

#[inline(always)]
pub fn md5(data: &[u8], digest: &mut [u8; 16]) {
    // SAFETY: a slice and an array that the borrows keep apart.
    let answer = unsafe { raw::rc4hmac_md5(data.as_ptr(), data.len(), digest) };
    assert_eq!(answer, 0);
}

/// `key` and `text` share no octet.
#[inline(always)]
pub fn hmac_md5(key: &[u8], text: &[u8], digest: &mut [u8; 16]) {
    // SAFETY: two slices that the benches keep apart, and an array.
    let answer = unsafe {
        raw::rc4hmac_hmac_md5(key.as_ptr(), key.len(), text.as_ptr(), text.len(), digest)
    };
    assert_eq!(answer, 0);
}

#[inline(always)]
pub fn rc4(key: &[u8], data: &mut [u8]) {
    // SAFETY: two slices that the borrows keep apart.
    let answer =
        unsafe { raw::rc4hmac_rc4(key.as_ptr(), key.len(), data.as_mut_ptr(), data.len()) };
    assert_eq!(answer, 0);
}

/// Decrypts a whole message of full strength in place.
#[inline(always)]
pub fn decrypt(key: &[u8; 16], usage: u32, message: &mut [u8]) -> bool {
    let (len, mut found) = (message.len(), 0);
    // SAFETY: an array, a slice and a number that the borrows keep apart.
    let answer = unsafe {
        raw::rc4hmac_decrypt(key, 0, usage, message.as_mut_ptr(), len, 0, len, &mut found)
    };
    answer == 0
}

/// Opens a whole token of full strength from the initiator in place: its
/// sequence number and the length of its message, if it is sealed.
#[inline(always)]
pub fn wrap_open(key: &[u8; 16], token: &mut [u8]) -> Option<(u32, usize)> {
    let (len, at) = (token.len(), token.as_mut_ptr());
    let (mut sequence, mut sealed, mut found) = (0, 0, 0);
    // SAFETY: an array, a slice and numbers that the borrows keep apart.
    let answer = unsafe {
        raw::rc4hmac_wrap_open(
            key,
            0,
            0,
            at,
            len,
            0,
            len,
            &mut sequence,
            &mut sealed,
            &mut found,
        )
    };
    (answer == 0 && sealed == 1).then_some((sequence, found))
}

/// Makes a whole sealed token of full strength from the initiator in place.
/// `key` and `confounder` share no octet.
#[inline(always)]
pub fn wrap_write(key: &[u8; 16], sequence: u32, confounder: &[u8; 8], token: &mut [u8]) {
    let (len, at) = (token.len(), token.as_mut_ptr());
    let (message_len, mut written) = (len - 33, 0);
    // SAFETY: arrays that the benches keep apart, and a slice and a number that
    // the borrows do.
    let answer = unsafe {
        raw::rc4hmac_wrap_write(
            key,
            0,
            0,
            sequence,
            confounder,
            1,
            at,
            len,
            0,
            message_len,
            &mut written,
        )
    };
    assert_eq!((answer, written), (0, len));
}
