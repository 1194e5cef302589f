//! MIC and Wrap tokens (RFC 4757, section 7) as safe functions.

use std::fmt;

use crate::token_calls::TOKENS;
use crate::{Refusal, Sender, Strength, CONFOUNDER_LEN, KEY_LEN};

/// What all tokens of one sender share.
///
/// ```
/// use rc4hmac::{Context, Sender, Strength};
///
/// let ours = Context {
///     key: [7; 16],
///     strength: Strength::Full,
///     sender: Sender::Initiator,
/// };
/// let theirs = Context { sender: Sender::Acceptor, ..ours };
///
/// // Printed without its key.
/// let printed = format!("{theirs:?}");
/// assert_eq!(printed, "Context { strength: Full, sender: Acceptor, .. }");
/// ```
#[derive(Clone, Copy)]
pub struct Context {
    /// The key, Kss in RFC 4757.
    pub key: [u8; KEY_LEN],
    /// The strength of the keys that are made of it.
    pub strength: Strength,
    /// Who sends: for a reader, the expected sender.
    pub sender: Sender,
}

/// Without the key.
impl fmt::Debug for Context {
    fn fmt(&self, f: &mut fmt::Formatter<'_>) -> fmt::Result {
        f.debug_struct("Context")
            .field("strength", &self.strength)
            .field("sender", &self.sender)
            .finish_non_exhaustive()
    }
}

/// What [`wrap_open`] and [`framed_wrap_open`](crate::framed_wrap_open) answer of
/// a token.
#[derive(Clone, Copy, Debug, PartialEq, Eq, Hash)]
pub struct Opened {
    /// The sequence number.
    pub sequence: u32,
    /// Whether the token came sealed, that is, encrypted.
    pub sealed: bool,
    /// The length of the message.
    pub message_len: usize,
}

/// Writes a MIC token to the [`MIC_LEN`](crate::MIC_LEN) octets at `start` and
/// answers that length. The data are at most
/// [`MESSAGE_MAX`](crate::limits::MESSAGE_MAX) octets.
///
/// ```
/// use rc4hmac::{mic_read, mic_write, Context, Sender, Strength, MIC_LEN};
///
/// let context = Context {
///     key: [7; 16],
///     strength: Strength::Full,
///     sender: Sender::Acceptor,
/// };
/// let mut token = [0; MIC_LEN];
/// let written = mic_write(&context, 41, b"a record", &mut token, 0)?;
/// assert_eq!(written, MIC_LEN);
/// assert_eq!(mic_read(&context, b"a record", &token, 0, written), Ok(41));
/// # Ok::<(), rc4hmac::Refusal>(())
/// ```
///
/// # Errors
///
/// [`Refusal::Length`] for longer data, [`Refusal::Region`] if the region does
/// not lie inside `buf`; `buf` is then as it was.
#[inline]
pub fn mic_write(
    context: &Context,
    sequence: u32,
    data: &[u8],
    buf: &mut [u8],
    start: usize,
) -> Result<usize, Refusal> {
    TOKENS.mic_write(context, sequence, data, buf, start)
}

/// Whether the `length` octets at `start` are a MIC token of `data`, and its
/// sequence number. The length is [`MIC_LEN`](crate::MIC_LEN); the data are at
/// most [`MESSAGE_MAX`](crate::limits::MESSAGE_MAX) octets, and are copied if
/// they share octets with `buf`.
///
/// The sequence number is under no checksum: a token with its octets 8 to 11
/// changed is read with another number.
///
/// # Errors
///
/// [`Refusal::Length`] for another length or longer data, [`Refusal::Region`]
/// if the region does not lie inside `buf`, [`Refusal::Header`] for other
/// octets 0 to 7 than a MIC token's, [`Refusal::Direction`] for another sender
/// and, but for one chance in 2^32, for another key or strength or a damaged
/// checksum in the token, [`Refusal::Checksum`] if the checksum differs:
///
/// ```
/// use rc4hmac::{mic_read, mic_write, Context, Refusal, Sender, Strength, MIC_LEN};
///
/// let context = Context {
///     key: [7; 16],
///     strength: Strength::Export,
///     sender: Sender::Initiator,
/// };
/// let mut token = [0; MIC_LEN];
/// mic_write(&context, 41, b"a record", &mut token, 0)?;
/// let answer = mic_read(&context, b"another one", &token, 0, MIC_LEN);
/// assert_eq!(answer, Err(Refusal::Checksum));
///
/// let acceptor = Context { sender: Sender::Acceptor, ..context };
/// let answer = mic_read(&acceptor, b"a record", &token, 0, MIC_LEN);
/// assert_eq!(answer, Err(Refusal::Direction));
/// # Ok::<(), Refusal>(())
/// ```
#[inline]
pub fn mic_read(
    context: &Context,
    data: &[u8],
    buf: &[u8],
    start: usize,
    length: usize,
) -> Result<u32, Refusal> {
    TOKENS.mic_read(context, data, buf, start, length)
}

/// Writes a Wrap token in place, sealed (encrypted) or not, and answers its
/// length.
///
/// The message, `message_len` octets, at most
/// [`MESSAGE_MAX`](crate::limits::MESSAGE_MAX), stands
/// [`WRAP_MESSAGE_OFFSET`](crate::WRAP_MESSAGE_OFFSET) octets after `start`.
/// The region from `start` to one octet after the message,
/// [`WRAP_OVERHEAD`](crate::WRAP_OVERHEAD) more than its length, becomes the
/// header, the sequence number, the checksum, the confounder, the message and
/// the pad, the latter three encrypted if `sealed`.
///
/// Each token needs a confounder of its own, of random octets. The keystream
/// that seals a token depends on the key, the strength and the sequence number
/// alone: two sealed tokens should not share all three, whoever sends them.
///
/// ```
/// use rc4hmac::{wrap_open, wrap_write, Context, Sender, Strength};
/// use rc4hmac::{WRAP_MESSAGE_OFFSET, WRAP_OVERHEAD};
///
/// let context = Context {
///     key: [7; 16],
///     strength: Strength::Full,
///     sender: Sender::Initiator,
/// };
/// let mut buf = [0; 8 + WRAP_OVERHEAD];
/// buf[WRAP_MESSAGE_OFFSET..][..8].copy_from_slice(b"a record");
///
/// let written = wrap_write(&context, 1, b"a nonce!", false, &mut buf, 0, 8)?;
/// assert_eq!(written, 41);
/// assert_eq!(&buf[WRAP_MESSAGE_OFFSET..], b"a record\x01");
///
/// let opened = wrap_open(&context, &mut buf, 0, written)?;
/// assert!(!opened.sealed);
/// assert_eq!(opened.message_len, 8);
/// # Ok::<(), rc4hmac::Refusal>(())
/// ```
///
/// # Errors
///
/// [`Refusal::Length`] for a longer message, [`Refusal::Region`] if the region
/// does not lie inside `buf`; `buf` is then as it was.
#[inline]
pub fn wrap_write(
    context: &Context,
    sequence: u32,
    confounder: &[u8; CONFOUNDER_LEN],
    sealed: bool,
    buf: &mut [u8],
    start: usize,
    message_len: usize,
) -> Result<usize, Refusal> {
    TOKENS.wrap_write(
        context,
        sequence,
        confounder,
        sealed,
        buf,
        start,
        message_len,
    )
}

/// Opens a Wrap token in place and answers what it tells of its message.
///
/// The region of `length` octets at `start`,
/// [`WRAP_MIN`](crate::limits::WRAP_MIN) to
/// [`WRAP_MAX`](crate::limits::WRAP_MAX) of them, keeps its octets 0 to 23 and
/// has the confounder (from its octet 24), the message (from its octet 32) and
/// the pad plain.
///
/// The sequence number of a token that is not sealed is under no checksum: such
/// a token with its octets 8 to 11 changed opens with another number. A sealed
/// token so changed is refused for its checksum, but for one chance in 2^64.
///
/// # Errors
///
/// [`Refusal::Length`] for another length, [`Refusal::Region`] if the region
/// does not lie inside `buf`, [`Refusal::Header`] for other octets 0 to 7 than a
/// Wrap token's, [`Refusal::Direction`] for another sender and, but for one
/// chance in 2^32, for another key or strength or a damaged checksum in the
/// token, [`Refusal::Checksum`] if the checksum differs, [`Refusal::Pad`] for a
/// token that was signed with another pad than 01; `buf` is then as it was:
///
/// ```
/// use rc4hmac::{wrap_open, wrap_write, Context, Refusal, Sender, Strength};
///
/// let context = Context {
///     key: [7; 16],
///     strength: Strength::Full,
///     sender: Sender::Initiator,
/// };
/// let mut buf = [5; 41];
/// wrap_write(&context, 1, b"a nonce!", true, &mut buf, 0, 8)?;
/// buf[35] ^= 1;
/// let damaged = buf;
/// let answer = wrap_open(&context, &mut buf, 0, 41);
/// assert_eq!(answer, Err(Refusal::Checksum));
/// assert_eq!(buf, damaged);
/// # Ok::<(), Refusal>(())
/// ```
#[inline]
pub fn wrap_open(
    context: &Context,
    buf: &mut [u8],
    start: usize,
    length: usize,
) -> Result<Opened, Refusal> {
    TOKENS.wrap_open(context, buf, start, length)
}
