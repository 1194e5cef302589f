//! The functions of the archive as C sees them, in `include/rc4hmac.h`.
//!
//! Each returns a refusal number, 0 when done: the lowest that applies, but from
//! the calls that read framed tokens 2 first, then 9, then the lowest of the
//! others. With a refusal every digest, key, checksum, length, number and status
//! written is zero, and no octet of lent data and no word of a window is changed.
//! `export_strength`, `acceptor` and `sealed` are 0 for no and anything else for
//! yes; `acceptor` says who the sender is, for the readers the expected sender.
//!
//! A status is 1 in order, 2 gap, 3 late, 4 duplicate, 5 old or 6 outside, and 0
//! for a refused token, as [`Status::number`](crate::Status::number) has them.
//! A window is four words: the first number, the next expected distance, the
//! marks of the 64 distances below that, and the billed count. Any four words
//! are taken, the first two modulo 2^32.
//!
//! # Safety
//!
//! For every function here: a pointer with a length beside it is followed by
//! as many octets, or 16-bit units, as the length says, and may be null or
//! dangling only where that length is 0; a pointer to an array is valid for all
//! its octets or words, and one to a length or a number is valid for writing it;
//! units, words, lengths and numbers are aligned; the areas lent to one call do
//! not overlap.

/// [`rc4hmac_mic_write`] or [`rc4hmac_framed_mic_write`].
pub type MicWrite = unsafe extern "C" fn(
    key: *const [u8; 16],
    export_strength: u32,
    acceptor: u32,
    sequence: u32,
    data: *const u8,
    data_len: usize,
    buf: *mut u8,
    buf_len: usize,
    start: usize,
    written: *mut usize,
) -> u32;

/// [`rc4hmac_mic_read`] or [`rc4hmac_framed_mic_read`].
pub type MicRead = unsafe extern "C" fn(
    key: *const [u8; 16],
    export_strength: u32,
    acceptor: u32,
    data: *const u8,
    data_len: usize,
    buf: *const u8,
    buf_len: usize,
    start: usize,
    length: usize,
    sequence: *mut u32,
) -> u32;

/// [`rc4hmac_wrap_write`] or [`rc4hmac_framed_wrap_write`].
pub type WrapWrite = unsafe extern "C" fn(
    key: *const [u8; 16],
    export_strength: u32,
    acceptor: u32,
    sequence: u32,
    confounder: *const [u8; 8],
    sealed: u32,
    buf: *mut u8,
    buf_len: usize,
    start: usize,
    message_len: usize,
    written: *mut usize,
) -> u32;

/// [`rc4hmac_wrap_open`] or [`rc4hmac_framed_wrap_open`].
pub type WrapOpen = unsafe extern "C" fn(
    key: *const [u8; 16],
    export_strength: u32,
    acceptor: u32,
    buf: *mut u8,
    buf_len: usize,
    start: usize,
    length: usize,
    sequence: *mut u32,
    sealed: *mut u32,
    message_len: *mut usize,
) -> u32;

/// [`rc4hmac_receive_wrap`] or [`rc4hmac_receive_framed_wrap`].
pub type ReceiveWrap = unsafe extern "C" fn(
    window: *mut [u64; 4],
    key: *const [u8; 16],
    export_strength: u32,
    acceptor: u32,
    buf: *mut u8,
    buf_len: usize,
    start: usize,
    length: usize,
    sequence: *mut u32,
    sealed: *mut u32,
    message_len: *mut usize,
    status: *mut u32,
) -> u32;

/// [`rc4hmac_receive_mic`] or [`rc4hmac_receive_framed_mic`].
pub type ReceiveMic = unsafe extern "C" fn(
    window: *mut [u64; 4],
    key: *const [u8; 16],
    export_strength: u32,
    acceptor: u32,
    data: *const u8,
    data_len: usize,
    buf: *const u8,
    buf_len: usize,
    start: usize,
    length: usize,
    sequence: *mut u32,
    status: *mut u32,
) -> u32;

extern "C" {
    /// The MD4 digest of `data`.
    pub fn rc4hmac_md4(data: *const u8, data_len: usize, digest: *mut [u8; 16]) -> u32;

    /// The MD5 digest of `data`.
    pub fn rc4hmac_md5(data: *const u8, data_len: usize, digest: *mut [u8; 16]) -> u32;

    /// The HMAC-MD5 digest of `text` under `key`.
    pub fn rc4hmac_hmac_md5(
        key: *const u8,
        key_len: usize,
        text: *const u8,
        text_len: usize,
        digest: *mut [u8; 16],
    ) -> u32;

    /// Combines `data`, in place, with the RC4 keystream of `key`.
    pub fn rc4hmac_rc4(key: *const u8, key_len: usize, data: *mut u8, data_len: usize) -> u32;

    /// The key of the password `units`.
    pub fn rc4hmac_password_key(units: *const u16, units_len: usize, key: *mut [u8; 16]) -> u32;

    /// The keyed checksum of `data`.
    pub fn rc4hmac_checksum(
        key: *const [u8; 16],
        usage: u32,
        data: *const u8,
        data_len: usize,
        checksum: *mut [u8; 16],
    ) -> u32;

    /// Whether `checksum` is the keyed checksum of `data`.
    pub fn rc4hmac_checksum_test(
        key: *const [u8; 16],
        usage: u32,
        data: *const u8,
        data_len: usize,
        checksum: *const u8,
        checksum_len: usize,
    ) -> u32;

    /// Encrypts the `data_len` octets that stand 24 after `start`, and writes
    /// the message's length.
    pub fn rc4hmac_encrypt(
        key: *const [u8; 16],
        export_strength: u32,
        usage: u32,
        confounder: *const [u8; 8],
        buf: *mut u8,
        buf_len: usize,
        start: usize,
        data_len: usize,
        written: *mut usize,
    ) -> u32;

    /// Decrypts the message of `length` octets at `start`, and writes the
    /// data's length.
    pub fn rc4hmac_decrypt(
        key: *const [u8; 16],
        export_strength: u32,
        usage: u32,
        buf: *mut u8,
        buf_len: usize,
        start: usize,
        length: usize,
        data_len: *mut usize,
    ) -> u32;

    /// Writes the MIC token of `data` to the 24 octets at `start`, and writes
    /// its length.
    pub fn rc4hmac_mic_write(
        key: *const [u8; 16],
        export_strength: u32,
        acceptor: u32,
        sequence: u32,
        data: *const u8,
        data_len: usize,
        buf: *mut u8,
        buf_len: usize,
        start: usize,
        written: *mut usize,
    ) -> u32;

    /// Whether the `length` octets at `start` are a MIC token of `data`; writes
    /// its sequence number.
    pub fn rc4hmac_mic_read(
        key: *const [u8; 16],
        export_strength: u32,
        acceptor: u32,
        data: *const u8,
        data_len: usize,
        buf: *const u8,
        buf_len: usize,
        start: usize,
        length: usize,
        sequence: *mut u32,
    ) -> u32;

    /// Makes a Wrap token of the `message_len` octets that stand 32 after
    /// `start`, and writes its length.
    pub fn rc4hmac_wrap_write(
        key: *const [u8; 16],
        export_strength: u32,
        acceptor: u32,
        sequence: u32,
        confounder: *const [u8; 8],
        sealed: u32,
        buf: *mut u8,
        buf_len: usize,
        start: usize,
        message_len: usize,
        written: *mut usize,
    ) -> u32;

    /// Opens the Wrap token of `length` octets at `start`, and writes its
    /// sequence number, 1 or 0 for sealed or not, and the message's length.
    pub fn rc4hmac_wrap_open(
        key: *const [u8; 16],
        export_strength: u32,
        acceptor: u32,
        buf: *mut u8,
        buf_len: usize,
        start: usize,
        length: usize,
        sequence: *mut u32,
        sealed: *mut u32,
        message_len: *mut usize,
    ) -> u32;

    /// Writes the framed MIC token of `data` to the 37 octets at `start`, and
    /// writes its length.
    pub fn rc4hmac_framed_mic_write(
        key: *const [u8; 16],
        export_strength: u32,
        acceptor: u32,
        sequence: u32,
        data: *const u8,
        data_len: usize,
        buf: *mut u8,
        buf_len: usize,
        start: usize,
        written: *mut usize,
    ) -> u32;

    /// Whether the `length` octets at `start` are a framed MIC token of `data`;
    /// writes its sequence number.
    pub fn rc4hmac_framed_mic_read(
        key: *const [u8; 16],
        export_strength: u32,
        acceptor: u32,
        data: *const u8,
        data_len: usize,
        buf: *const u8,
        buf_len: usize,
        start: usize,
        length: usize,
        sequence: *mut u32,
    ) -> u32;

    /// Writes how many octets stand before the token in the frame of a Wrap
    /// token with a message of `message_len` octets.
    pub fn rc4hmac_framed_wrap_lead(message_len: usize, lead: *mut usize) -> u32;

    /// Makes a framed Wrap token of the `message_len` octets that stand the lead
    /// and 32 after `start`, and writes its length.
    pub fn rc4hmac_framed_wrap_write(
        key: *const [u8; 16],
        export_strength: u32,
        acceptor: u32,
        sequence: u32,
        confounder: *const [u8; 8],
        sealed: u32,
        buf: *mut u8,
        buf_len: usize,
        start: usize,
        message_len: usize,
        written: *mut usize,
    ) -> u32;

    /// Opens the framed Wrap token of `length` octets at `start`, and writes its
    /// sequence number, 1 or 0 for sealed or not, and the message's length.
    pub fn rc4hmac_framed_wrap_open(
        key: *const [u8; 16],
        export_strength: u32,
        acceptor: u32,
        buf: *mut u8,
        buf_len: usize,
        start: usize,
        length: usize,
        sequence: *mut u32,
        sealed: *mut u32,
        message_len: *mut usize,
    ) -> u32;

    /// Makes a new window for a session whose first number is `first`.
    pub fn rc4hmac_window_new(first: u32, window: *mut [u64; 4]) -> u32;

    /// Bills `sequence`, or does not, by its status, which it writes.
    pub fn rc4hmac_window_bill(window: *mut [u64; 4], sequence: u32, status: *mut u32) -> u32;

    /// Writes how many of the 64 distances below the next expected one, or of
    /// all below it if they are fewer, have not been billed.
    pub fn rc4hmac_window_missing(window: *const [u64; 4], missing: *mut u32) -> u32;

    /// Opens a Wrap token as [`rc4hmac_wrap_open`] does and bills its sequence
    /// number as [`rc4hmac_window_bill`] does; a refused token never reaches
    /// the window.
    pub fn rc4hmac_receive_wrap(
        window: *mut [u64; 4],
        key: *const [u8; 16],
        export_strength: u32,
        acceptor: u32,
        buf: *mut u8,
        buf_len: usize,
        start: usize,
        length: usize,
        sequence: *mut u32,
        sealed: *mut u32,
        message_len: *mut usize,
        status: *mut u32,
    ) -> u32;

    /// Reads a MIC token as [`rc4hmac_mic_read`] does and bills its sequence
    /// number as [`rc4hmac_window_bill`] does; a refused token never reaches
    /// the window.
    pub fn rc4hmac_receive_mic(
        window: *mut [u64; 4],
        key: *const [u8; 16],
        export_strength: u32,
        acceptor: u32,
        data: *const u8,
        data_len: usize,
        buf: *const u8,
        buf_len: usize,
        start: usize,
        length: usize,
        sequence: *mut u32,
        status: *mut u32,
    ) -> u32;

    /// Opens a framed Wrap token as [`rc4hmac_framed_wrap_open`] does and bills
    /// its sequence number as [`rc4hmac_window_bill`] does; a refused token
    /// never reaches the window.
    pub fn rc4hmac_receive_framed_wrap(
        window: *mut [u64; 4],
        key: *const [u8; 16],
        export_strength: u32,
        acceptor: u32,
        buf: *mut u8,
        buf_len: usize,
        start: usize,
        length: usize,
        sequence: *mut u32,
        sealed: *mut u32,
        message_len: *mut usize,
        status: *mut u32,
    ) -> u32;

    /// Reads a framed MIC token as [`rc4hmac_framed_mic_read`] does and bills
    /// its sequence number as [`rc4hmac_window_bill`] does; a refused token
    /// never reaches the window.
    pub fn rc4hmac_receive_framed_mic(
        window: *mut [u64; 4],
        key: *const [u8; 16],
        export_strength: u32,
        acceptor: u32,
        data: *const u8,
        data_len: usize,
        buf: *const u8,
        buf_len: usize,
        start: usize,
        length: usize,
        sequence: *mut u32,
        status: *mut u32,
    ) -> u32;
}
