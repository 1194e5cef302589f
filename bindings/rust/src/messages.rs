//! The key of a password, keyed checksums and encrypted messages as safe
//! functions.

use crate::lent::apart_from;
use crate::{raw, Refusal, Strength, Usage, CHECKSUM_LEN, CONFOUNDER_LEN, KEY_LEN};

/// The key of a password (RFC 4757, section 2) of at most
/// [`PASSWORD_UNITS_MAX`](crate::limits::PASSWORD_UNITS_MAX) UTF-16 units,
/// without a closing zero.
///
/// ```
/// let units: Vec<u16> = "foo".encode_utf16().collect();
/// let key = rc4hmac::password_key(&units)?;
/// assert_eq!(key[..4], [0xac, 0x8e, 0x65, 0x7f]);
/// # Ok::<(), rc4hmac::Refusal>(())
/// ```
///
/// # Errors
///
/// [`Refusal::Length`] for more units.
#[inline]
pub fn password_key(units: &[u16]) -> Result<[u8; KEY_LEN], Refusal> {
    let mut key = [0; KEY_LEN];
    // SAFETY: `units` is a slice, `key` is writable and is lent to nothing else.
    let answer = unsafe { raw::rc4hmac_password_key(units.as_ptr(), units.len(), &mut key) };
    Refusal::check(answer).map(|()| key)
}

/// The keyed checksum (RFC 4757, section 4) of at most
/// [`MESSAGE_MAX`](crate::limits::MESSAGE_MAX) octets.
///
/// # Errors
///
/// [`Refusal::Length`] for longer data.
#[inline]
pub fn checksum(
    key: &[u8; KEY_LEN],
    usage: Usage,
    data: &[u8],
) -> Result<[u8; CHECKSUM_LEN], Refusal> {
    let key = apart_from(&[data], key);
    let mut checksum = [0; CHECKSUM_LEN];
    // SAFETY: `key` has KEY_LEN octets, `data` is a slice, and they share none;
    // `checksum` is writable and is lent to nothing else.
    let answer = unsafe {
        raw::rc4hmac_checksum(
            key.as_ptr().cast(),
            usage.number(),
            data.as_ptr(),
            data.len(),
            &mut checksum,
        )
    };
    Refusal::check(answer).map(|()| checksum)
}

/// Whether `checksum` is the keyed checksum of `data`.
///
/// ```
/// use rc4hmac::{checksum, checksum_test, Refusal, Usage};
///
/// let (key, usage) = ([7; 16], Usage::KRB_SAFE_CKSUM);
/// let mut sum = checksum(&key, usage, b"a record")?;
/// checksum_test(&key, usage, b"a record", &sum)?;
///
/// sum[15] ^= 1;
/// let answer = checksum_test(&key, usage, b"a record", &sum);
/// assert_eq!(answer, Err(Refusal::Checksum));
/// # Ok::<(), Refusal>(())
/// ```
///
/// # Errors
///
/// [`Refusal::Checksum`] if it is not; [`Refusal::Length`] for data longer than
/// [`MESSAGE_MAX`](crate::limits::MESSAGE_MAX) or a checksum that is not
/// [`CHECKSUM_LEN`] octets long.
#[inline]
pub fn checksum_test(
    key: &[u8; KEY_LEN],
    usage: Usage,
    data: &[u8],
    checksum: &[u8],
) -> Result<(), Refusal> {
    let key = apart_from(&[data, checksum], key);
    let checksum = apart_from(&[data], checksum);
    // SAFETY: `key` has KEY_LEN octets, the others are slices, and no two of
    // them share an octet.
    let answer = unsafe {
        raw::rc4hmac_checksum_test(
            key.as_ptr().cast(),
            usage.number(),
            data.as_ptr(),
            data.len(),
            checksum.as_ptr(),
            checksum.len(),
        )
    };
    Refusal::check(answer)
}

/// Encrypts a message (RFC 4757, section 5) in place and answers its length.
///
/// The data, `data_len` octets, at most
/// [`MESSAGE_MAX`](crate::limits::MESSAGE_MAX), stand
/// [`ENCRYPTED_OVERHEAD`](crate::ENCRYPTED_OVERHEAD) octets after `start`. The
/// region from `start` to their end becomes the checksum, the confounder and
/// the data, the latter two encrypted. Each message needs a confounder of its
/// own, of random octets.
///
/// ```
/// use rc4hmac::{decrypt, encrypt, Strength, Usage, ENCRYPTED_OVERHEAD};
///
/// let (key, usage) = ([7; 16], Usage::KRB_PRIV_ENCRYPTED_PART);
/// let confounder = *b"a nonce!";
/// let mut buf = [0; 32];
/// buf[ENCRYPTED_OVERHEAD..].copy_from_slice(b"a record");
///
/// let written = encrypt(&key, Strength::Full, usage, &confounder, &mut buf, 0, 8)?;
/// assert_eq!(written, 32);
/// assert_ne!(&buf[ENCRYPTED_OVERHEAD..], b"a record");
///
/// let data_len = decrypt(&key, Strength::Full, usage, &mut buf, 0, written)?;
/// assert_eq!(data_len, 8);
/// assert_eq!(&buf[ENCRYPTED_OVERHEAD..], b"a record");
/// # Ok::<(), rc4hmac::Refusal>(())
/// ```
///
/// # Errors
///
/// [`Refusal::Length`] for longer data, [`Refusal::Region`] if the region does
/// not lie inside `buf`; `buf` is then as it was.
#[inline]
pub fn encrypt(
    key: &[u8; KEY_LEN],
    strength: Strength,
    usage: Usage,
    confounder: &[u8; CONFOUNDER_LEN],
    buf: &mut [u8],
    start: usize,
    data_len: usize,
) -> Result<usize, Refusal> {
    let key = apart_from(&[confounder], key);
    let mut written = 0;
    // SAFETY: `key` has KEY_LEN octets and shares none with `confounder`; `buf`
    // and `written` are borrowed alone.
    let answer = unsafe {
        raw::rc4hmac_encrypt(
            key.as_ptr().cast(),
            strength.export(),
            usage.number(),
            confounder,
            buf.as_mut_ptr(),
            buf.len(),
            start,
            data_len,
            &mut written,
        )
    };
    Refusal::check(answer).map(|()| written)
}

/// Decrypts a message in place and answers the length of its data.
///
/// The region of `length` octets at `start`,
/// [`ENCRYPTED_MIN`](crate::limits::ENCRYPTED_MIN) to
/// [`ENCRYPTED_MAX`](crate::limits::ENCRYPTED_MAX) of them, keeps its checksum
/// and has the confounder (from its octet 16) and the data (from its octet 24)
/// plain.
///
/// # Errors
///
/// [`Refusal::Length`] for another length, [`Refusal::Region`] if the region
/// does not lie inside `buf`, [`Refusal::Checksum`] for a message that this
/// key, strength and usage did not make; `buf` is then as it was:
///
/// ```
/// use rc4hmac::{decrypt, Refusal, Strength, Usage};
///
/// let mut buf = [5; 40];
/// let usage = Usage::AP_REQ_AUTHENTICATOR;
/// let answer = decrypt(&[7; 16], Strength::Export, usage, &mut buf, 0, 40);
/// assert_eq!(answer, Err(Refusal::Checksum));
/// assert_eq!(buf, [5; 40]);
/// ```
#[inline]
pub fn decrypt(
    key: &[u8; KEY_LEN],
    strength: Strength,
    usage: Usage,
    buf: &mut [u8],
    start: usize,
    length: usize,
) -> Result<usize, Refusal> {
    let mut data_len = 0;
    // SAFETY: `buf` and `data_len` are borrowed alone, apart from `key`.
    let answer = unsafe {
        raw::rc4hmac_decrypt(
            key,
            strength.export(),
            usage.number(),
            buf.as_mut_ptr(),
            buf.len(),
            start,
            length,
            &mut data_len,
        )
    };
    Refusal::check(answer).map(|()| data_len)
}
