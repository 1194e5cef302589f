//! MD4, MD5, HMAC-MD5 and RC4 as safe functions.

use crate::lent::apart_from;
use crate::{raw, Refusal, DIGEST_LEN};

/// The MD4 digest (RFC 1320) of at most
/// [`DIGEST_DATA_MAX`](crate::limits::DIGEST_DATA_MAX) octets.
///
/// # Errors
///
/// [`Refusal::Length`] for longer data.
#[inline]
pub fn md4(data: &[u8]) -> Result<[u8; DIGEST_LEN], Refusal> {
    let mut digest = [0; DIGEST_LEN];
    // SAFETY: `data` is a slice, `digest` is writable and is lent to nothing else.
    let answer = unsafe { raw::rc4hmac_md4(data.as_ptr(), data.len(), &mut digest) };
    Refusal::check(answer).map(|()| digest)
}

/// The MD5 digest (RFC 1321) of at most
/// [`DIGEST_DATA_MAX`](crate::limits::DIGEST_DATA_MAX) octets.
///
/// # Errors
///
/// [`Refusal::Length`] for longer data:
///
/// ```
/// use rc4hmac::{limits::DIGEST_DATA_MAX, md5, Refusal};
///
/// let data = vec![0; DIGEST_DATA_MAX + 1];
/// assert!(md5(&data[1..]).is_ok());
/// assert_eq!(md5(&data), Err(Refusal::Length));
/// ```
#[inline]
pub fn md5(data: &[u8]) -> Result<[u8; DIGEST_LEN], Refusal> {
    let mut digest = [0; DIGEST_LEN];
    // SAFETY: `data` is a slice, `digest` is writable and is lent to nothing else.
    let answer = unsafe { raw::rc4hmac_md5(data.as_ptr(), data.len(), &mut digest) };
    Refusal::check(answer).map(|()| digest)
}

/// The HMAC-MD5 digest (RFC 2104) of at most
/// [`HMAC_TEXT_MAX`](crate::limits::HMAC_TEXT_MAX) octets of text under a key
/// of at most [`HMAC_KEY_MAX`](crate::limits::HMAC_KEY_MAX) octets.
///
/// # Errors
///
/// [`Refusal::Length`] for a longer key or text.
#[inline]
pub fn hmac_md5(key: &[u8], text: &[u8]) -> Result<[u8; DIGEST_LEN], Refusal> {
    let key = apart_from(&[text], key);
    let mut digest = [0; DIGEST_LEN];
    // SAFETY: `key` and `text` are slices that share no octet, `digest` is
    // writable and is lent to nothing else.
    let answer = unsafe {
        raw::rc4hmac_hmac_md5(
            key.as_ptr(),
            key.len(),
            text.as_ptr(),
            text.len(),
            &mut digest,
        )
    };
    Refusal::check(answer).map(|()| digest)
}

/// Combines `data`, in place, with the RC4 keystream of `key`: the same call
/// encrypts and decrypts. The key has
/// [`RC4_KEY_MIN`](crate::limits::RC4_KEY_MIN) to
/// [`RC4_KEY_MAX`](crate::limits::RC4_KEY_MAX) octets, the data at most
/// [`RC4_DATA_MAX`](crate::limits::RC4_DATA_MAX). Every call starts the
/// keystream anew.
///
/// # Errors
///
/// [`Refusal::Length`] for another key length or longer data; `data` is then
/// as it was.
#[inline]
pub fn rc4(key: &[u8], data: &mut [u8]) -> Result<(), Refusal> {
    // SAFETY: both are slices, and `data` is borrowed alone, apart from `key`.
    let answer =
        unsafe { raw::rc4hmac_rc4(key.as_ptr(), key.len(), data.as_mut_ptr(), data.len()) };
    Refusal::check(answer)
}
