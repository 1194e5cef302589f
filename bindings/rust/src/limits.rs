//! The limits of lengths, in octets if not said otherwise: the last length that
//! is let in, or the first where the name ends in `MIN`. Without a `MIN` the
//! first is 0.

/// The most octets that [`md4`](crate::md4) and [`md5`](crate::md5) digest.
pub const DIGEST_DATA_MAX: usize = 65_536;

/// The longest key of [`hmac_md5`](crate::hmac_md5).
pub const HMAC_KEY_MAX: usize = 65_536;

/// The longest text of [`hmac_md5`](crate::hmac_md5).
pub const HMAC_TEXT_MAX: usize = 65_472;

/// The shortest key of [`rc4`](crate::rc4).
pub const RC4_KEY_MIN: usize = 1;

/// The longest key of [`rc4`](crate::rc4).
pub const RC4_KEY_MAX: usize = 256;

/// The most octets that [`rc4`](crate::rc4) takes at once.
pub const RC4_DATA_MAX: usize = 65_536;

/// The longest password of [`password_key`](crate::password_key), in 16-bit
/// units.
pub const PASSWORD_UNITS_MAX: usize = 256;

/// The most octets that [`checksum`](crate::checksum),
/// [`checksum_test`](crate::checksum_test), [`mic_write`](crate::mic_write) and
/// [`mic_read`](crate::mic_read) take, that [`encrypt`](crate::encrypt) puts in
/// a message and [`wrap_write`](crate::wrap_write) in a token; and with the
/// frame the same.
pub const MESSAGE_MAX: usize = 32_768;

/// The shortest message of [`decrypt`](crate::decrypt).
pub const ENCRYPTED_MIN: usize = 24;

/// The longest message of [`decrypt`](crate::decrypt).
pub const ENCRYPTED_MAX: usize = 32_792;

/// The shortest token of [`wrap_open`](crate::wrap_open).
pub const WRAP_MIN: usize = 33;

/// The longest token of [`wrap_open`](crate::wrap_open).
pub const WRAP_MAX: usize = 32_801;

/// The shortest framed token that [`framed_wrap_open`](crate::framed_wrap_open)
/// opens.
pub const FRAMED_WRAP_MIN: usize = 46;

/// The longest framed token that [`framed_wrap_open`](crate::framed_wrap_open)
/// opens.
pub const FRAMED_WRAP_MAX: usize = 32_816;
