//! MIC and Wrap tokens in GSS-API's outer frame (RFC 2743, section 3.1) as safe
//! functions.
//!
//! The frame is 60, a DER length, the mechanism 06 09 2a 86 48 86 f7 12 01 02 02,
//! and then the token, which ends it. The length counts the mechanism and the
//! token, in the shortest form. What stands before the token is its lead.

use crate::token_calls::FRAMED;
use crate::{raw, Context, Opened, Refusal, CONFOUNDER_LEN};

/// Writes a framed MIC token to the [`FRAMED_MIC_LEN`](crate::FRAMED_MIC_LEN)
/// octets at `start` and answers that length. The data are at most
/// [`MESSAGE_MAX`](crate::limits::MESSAGE_MAX) octets.
///
/// ```
/// use rc4hmac::{framed_mic_read, framed_mic_write, FRAMED_MIC_LEN};
/// use rc4hmac::{Context, Sender, Strength};
///
/// let context = Context {
///     key: [7; 16],
///     strength: Strength::Full,
///     sender: Sender::Acceptor,
/// };
/// let mut framed = [0; FRAMED_MIC_LEN];
/// let written = framed_mic_write(&context, 41, b"a record", &mut framed, 0)?;
/// assert_eq!(written, FRAMED_MIC_LEN);
/// assert_eq!(framed[..2], [0x60, 0x23]);
///
/// let answer = framed_mic_read(&context, b"a record", &framed, 0, written);
/// assert_eq!(answer, Ok(41));
/// # Ok::<(), rc4hmac::Refusal>(())
/// ```
///
/// # Errors
///
/// [`Refusal::Length`] for longer data, [`Refusal::Region`] if the region does
/// not lie inside `buf`; `buf` is then as it was.
#[inline]
pub fn framed_mic_write(
    context: &Context,
    sequence: u32,
    data: &[u8],
    buf: &mut [u8],
    start: usize,
) -> Result<usize, Refusal> {
    FRAMED.mic_write(context, sequence, data, buf, start)
}

/// Whether the `length` octets at `start` are a framed MIC token of `data`, and
/// its sequence number. The data are at most
/// [`MESSAGE_MAX`](crate::limits::MESSAGE_MAX) octets, and are copied if they
/// share octets with `buf`.
///
/// The sequence number is under no checksum, as [`mic_read`](crate::mic_read)
/// says.
///
/// # Errors
///
/// [`Refusal::Region`] if the region does not lie inside `buf`, then
/// [`Refusal::Frame`] if it is not one whole frame, then as from
/// [`mic_read`](crate::mic_read) for the token in the frame:
/// [`Refusal::Length`] for another length of it or longer data,
/// [`Refusal::Header`], [`Refusal::Direction`] or [`Refusal::Checksum`].
///
/// ```
/// use rc4hmac::{framed_mic_read, framed_mic_write, Refusal, FRAMED_MIC_LEN};
/// use rc4hmac::{Context, Sender, Strength};
///
/// let context = Context {
///     key: [7; 16],
///     strength: Strength::Export,
///     sender: Sender::Initiator,
/// };
/// let mut framed = [0; FRAMED_MIC_LEN];
/// framed_mic_write(&context, 41, b"a record", &mut framed, 0)?;
/// let answer = framed_mic_read(&context, b"another one", &framed, 0, FRAMED_MIC_LEN);
/// assert_eq!(answer, Err(Refusal::Checksum));
///
/// // The length ends one octet after the region.
/// framed[1] += 1;
/// let answer = framed_mic_read(&context, b"a record", &framed, 0, FRAMED_MIC_LEN);
/// assert_eq!(answer, Err(Refusal::Frame));
/// # Ok::<(), Refusal>(())
/// ```
#[inline]
pub fn framed_mic_read(
    context: &Context,
    data: &[u8],
    buf: &[u8],
    start: usize,
    length: usize,
) -> Result<u32, Refusal> {
    FRAMED.mic_read(context, data, buf, start, length)
}

/// How many octets stand before the token in the frame of a Wrap token with a
/// message of `message_len` octets, at most
/// [`MESSAGE_MAX`](crate::limits::MESSAGE_MAX).
///
/// ```
/// use rc4hmac::framed_wrap_lead;
///
/// for (lead, lens) in [(13, [0, 83]), (14, [84, 211]), (15, [212, 32_768])] {
///     for message_len in lens {
///         assert_eq!(framed_wrap_lead(message_len), Ok(lead));
///     }
/// }
/// ```
///
/// # Errors
///
/// [`Refusal::Length`] for a longer message.
#[inline]
pub fn framed_wrap_lead(message_len: usize) -> Result<usize, Refusal> {
    let mut lead = 0;
    // SAFETY: `lead` is borrowed alone.
    let answer = unsafe { raw::rc4hmac_framed_wrap_lead(message_len, &mut lead) };
    Refusal::check(answer).map(|()| lead)
}

/// Writes a framed Wrap token in place, sealed (encrypted) or not, and answers
/// its length.
///
/// The message, `message_len` octets, at most
/// [`MESSAGE_MAX`](crate::limits::MESSAGE_MAX), stands where it will stand in the
/// framed token: the lead, which [`framed_wrap_lead`] tells, and
/// [`WRAP_MESSAGE_OFFSET`](crate::WRAP_MESSAGE_OFFSET) octets after `start`. The
/// region from `start` to one octet after the message, the lead and
/// [`WRAP_OVERHEAD`](crate::WRAP_OVERHEAD) more than its length, becomes the lead
/// and the token that [`wrap_write`](crate::wrap_write) writes; what is said
/// there of confounder and sequence number holds here too.
///
/// ```
/// use rc4hmac::{framed_wrap_lead, framed_wrap_open, framed_wrap_write};
/// use rc4hmac::{Context, Sender, Strength, WRAP_MESSAGE_OFFSET, WRAP_OVERHEAD};
///
/// let context = Context {
///     key: [7; 16],
///     strength: Strength::Full,
///     sender: Sender::Initiator,
/// };
/// let lead = framed_wrap_lead(8)?;
/// let mut buf = vec![0; lead + WRAP_OVERHEAD + 8];
/// buf[lead + WRAP_MESSAGE_OFFSET..][..8].copy_from_slice(b"a record");
///
/// let written = framed_wrap_write(&context, 1, b"a nonce!", false, &mut buf, 0, 8)?;
/// assert_eq!(written, buf.len());
/// assert_eq!(buf[..4], [0x60, 0x34, 0x06, 0x09]);
/// assert_eq!(&buf[lead + WRAP_MESSAGE_OFFSET..], b"a record\x01");
///
/// let opened = framed_wrap_open(&context, &mut buf, 0, written)?;
/// assert!(!opened.sealed);
/// assert_eq!(opened.message_len, 8);
/// # Ok::<(), rc4hmac::Refusal>(())
/// ```
///
/// # Errors
///
/// [`Refusal::Length`] for a longer message, [`Refusal::Region`] if the region
/// does not lie inside `buf`; `buf` is then as it was.
#[inline]
pub fn framed_wrap_write(
    context: &Context,
    sequence: u32,
    confounder: &[u8; CONFOUNDER_LEN],
    sealed: bool,
    buf: &mut [u8],
    start: usize,
    message_len: usize,
) -> Result<usize, Refusal> {
    FRAMED.wrap_write(
        context,
        sequence,
        confounder,
        sealed,
        buf,
        start,
        message_len,
    )
}

/// Opens a framed Wrap token in place and answers what it tells of its message.
///
/// The region of `length` octets at `start`, of a token that opens
/// [`FRAMED_WRAP_MIN`](crate::limits::FRAMED_WRAP_MIN) to
/// [`FRAMED_WRAP_MAX`](crate::limits::FRAMED_WRAP_MAX) of them, keeps its lead and
/// the token's octets 0 to 23 and has the confounder, the message and the pad
/// plain. The pad is its last octet: the message begins at
/// `start + length - 1 - message_len`.
///
/// The sequence number of a token that is not sealed is under no checksum, as
/// [`wrap_open`](crate::wrap_open) says.
///
/// # Errors
///
/// [`Refusal::Region`] if the region does not lie inside `buf`, then
/// [`Refusal::Frame`] if it is not one whole frame, then as from
/// [`wrap_open`](crate::wrap_open) for the token in the frame:
/// [`Refusal::Length`] for another length of it, [`Refusal::Header`],
/// [`Refusal::Direction`], [`Refusal::Checksum`] or [`Refusal::Pad`]. `buf` is
/// then as it was:
///
/// ```
/// use rc4hmac::{framed_wrap_open, framed_wrap_write, Refusal};
/// use rc4hmac::{Context, Sender, Strength};
///
/// let context = Context {
///     key: [7; 16],
///     strength: Strength::Full,
///     sender: Sender::Initiator,
/// };
/// let mut buf = [5; 54];
/// framed_wrap_write(&context, 1, b"a nonce!", true, &mut buf, 0, 8)?;
///
/// let framed = buf;
/// for (at, refusal) in [(48, Refusal::Checksum), (12, Refusal::Frame)] {
///     let mut damaged = framed;
///     damaged[at] ^= 1;
///     let mut buf = damaged;
///     assert_eq!(framed_wrap_open(&context, &mut buf, 0, 54), Err(refusal));
///     assert_eq!(buf, damaged);
/// }
///
/// // The region is longer than the frame.
/// let mut longer = [&framed[..], &[0]].concat();
/// let answer = framed_wrap_open(&context, &mut longer, 0, 55);
/// assert_eq!(answer, Err(Refusal::Frame));
/// # Ok::<(), Refusal>(())
/// ```
#[inline]
pub fn framed_wrap_open(
    context: &Context,
    buf: &mut [u8],
    start: usize,
    length: usize,
) -> Result<Opened, Refusal> {
    FRAMED.wrap_open(context, buf, start, length)
}
