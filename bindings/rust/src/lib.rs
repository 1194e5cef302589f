//! Safe functions over `librc4hmac.a`: the keys, checksums, encrypted messages,
//! MIC tokens and Wrap tokens of RC4-HMAC (RFC 4757), the tokens also in GSS-API's
//! outer frame (RFC 2743), a receive window for the tokens of a session, and MD4,
//! MD5, HMAC-MD5 and RC4 under them, over octets in memory, on x86-64 Linux.
//!
//! Every function takes lengths within [limits] and answers a [`Refusal`]
//! outside them; a refusal changes nothing that was lent.
//!
//! Where the steps of RFC 4757 differ from what is really sent, tokens are as
//! they are sent: the checksum of a Wrap token begins with 13 and not 15, the
//! direction octets are those of RFC 1964, and export strength sets nine octets
//! to AB and not seven.
//!
//! A Wrap token, sealed by the initiator of a context and opened by its
//! acceptor:
//!
//! ```
//! use rc4hmac::{wrap_open, wrap_write, Context, Sender, Strength};
//!
//! let context = Context {
//!     key: [7; 16],
//!     strength: Strength::Full,
//!     sender: Sender::Initiator,
//! };
//!
//! // 32 octets for the header fields, then the message, then one for the pad.
//! let mut buf = [&[0; 32], &b"a record"[..], &[0]].concat();
//! let written = wrap_write(&context, 1, b"a nonce!", true, &mut buf, 0, 8)?;
//! assert_eq!(written, 41);
//! assert_ne!(&buf[32..40], b"a record");
//!
//! let opened = wrap_open(&context, &mut buf, 0, written)?;
//! assert_eq!((opened.sequence, opened.sealed), (1, true));
//! assert_eq!(&buf[32..32 + opened.message_len], b"a record");
//! # Ok::<(), rc4hmac::Refusal>(())
//! ```
//!
//! The same in GSS-API's outer frame, as tokens travel:
//!
//! ```
//! use rc4hmac::{framed_wrap_lead, framed_wrap_open, framed_wrap_write};
//! use rc4hmac::{Context, Sender, Strength};
//!
//! let context = Context {
//!     key: [7; 16],
//!     strength: Strength::Full,
//!     sender: Sender::Initiator,
//! };
//!
//! // The lead, 32 octets for the header fields, the message, one for the pad.
//! let lead = framed_wrap_lead(8)?;
//! let mut buf = [&vec![0; lead + 32], &b"a record"[..], &[0]].concat();
//! let written = framed_wrap_write(&context, 1, b"a nonce!", true, &mut buf, 0, 8)?;
//! assert_eq!((buf[0], written), (0x60, 54));
//!
//! let opened = framed_wrap_open(&context, &mut buf, 0, written)?;
//! let message = written - 1 - opened.message_len;
//! assert_eq!(&buf[message..written - 1], b"a record");
//! # Ok::<(), rc4hmac::Refusal>(())
//! ```
//!
//! A framed token received in a [`Window`], which bills each sequence number once
//! and none for a refused token; [`Window::receive_wrap`] does the same for one
//! without a frame:
//!
//! ```
//! use rc4hmac::{framed_wrap_write, Context, Refusal, Sender, Status, Strength, Window};
//!
//! let context = Context {
//!     key: [7; 16],
//!     strength: Strength::Full,
//!     sender: Sender::Initiator,
//! };
//! let mut token = [&[0; 13 + 32], &b"a record"[..], &[0]].concat();
//! framed_wrap_write(&context, 1, b"a nonce!", true, &mut token, 0, 8)?;
//!
//! let mut window = Window::new(1);
//! let mut damaged = token.clone();
//! damaged[50] ^= 1;
//! let received = window.receive_framed_wrap(&context, &mut damaged, 0, 54);
//! assert_eq!(received, Err(Refusal::Checksum));
//!
//! for status in [Status::InOrder, Status::Duplicate] {
//!     let mut buf = token.clone();
//!     let received = window.receive_framed_wrap(&context, &mut buf, 0, 54)?;
//!     assert_eq!(received.status, status);
//! }
//! assert_eq!(window.billed(), 1);
//! # Ok::<(), rc4hmac::Refusal>(())
//! ```
//!
//! The key of a password, an encrypted message and a digest:
//!
//! ```
//! use rc4hmac::{Strength, Usage};
//!
//! let units: Vec<u16> = "a password".encode_utf16().collect();
//! let key = rc4hmac::password_key(&units)?;
//!
//! // 24 octets for the checksum and the confounder, then the data.
//! let mut buf = [&[0; 24], &b"a record"[..]].concat();
//! let (strength, usage) = (Strength::Full, Usage::KRB_PRIV_ENCRYPTED_PART);
//! let written = rc4hmac::encrypt(&key, strength, usage, b"a nonce!", &mut buf, 0, 8)?;
//! assert_eq!(written, 32);
//!
//! let data_len = rc4hmac::decrypt(&key, strength, usage, &mut buf, 0, written)?;
//! assert_eq!(&buf[24..24 + data_len], b"a record");
//!
//! let digest = rc4hmac::md5(b"abc")?;
//! assert_eq!(digest[..4], [0x90, 0x01, 0x50, 0x98]);
//! # Ok::<(), rc4hmac::Refusal>(())
//! ```

#![deny(missing_docs)]

pub mod limits;
pub mod raw;

mod frames;
mod lent;
mod messages;
mod primitives;
mod refusal;
mod sender;
mod status;
mod strength;
mod token_calls;
mod tokens;
mod usage;
mod window;

pub use frames::{
    framed_mic_read, framed_mic_write, framed_wrap_lead, framed_wrap_open, framed_wrap_write,
};
pub use messages::{checksum, checksum_test, decrypt, encrypt, password_key};
pub use primitives::{hmac_md5, md4, md5, rc4};
pub use refusal::Refusal;
pub use sender::Sender;
pub use status::Status;
pub use strength::Strength;
pub use tokens::{mic_read, mic_write, wrap_open, wrap_write, Context, Opened};
pub use usage::Usage;
pub use window::{ReceivedMic, ReceivedWrap, Window};

/// The octets of an MD4, MD5 or HMAC-MD5 digest.
pub const DIGEST_LEN: usize = 16;

/// The octets of a key for checksums, encrypted messages and tokens.
pub const KEY_LEN: usize = 16;

/// The octets of a keyed checksum, and of the one in an encrypted message.
pub const CHECKSUM_LEN: usize = 16;

/// The octets of a confounder.
pub const CONFOUNDER_LEN: usize = 8;

/// The octets before the data of an encrypted message: its checksum and its
/// confounder.
pub const ENCRYPTED_OVERHEAD: usize = CHECKSUM_LEN + CONFOUNDER_LEN;

/// The octets of a MIC token.
pub const MIC_LEN: usize = 24;

/// Where in a Wrap token the message stands: behind the header, the sequence
/// number, the checksum and the confounder.
pub const WRAP_MESSAGE_OFFSET: usize = 32;

/// The octets of a Wrap token that are not its message: those before it and
/// the pad.
pub const WRAP_OVERHEAD: usize = WRAP_MESSAGE_OFFSET + 1;

/// The octets of a framed MIC token.
pub const FRAMED_MIC_LEN: usize = 37;

/// The words of a [`Window`].
pub const WINDOW_WORDS: usize = 4;

/// The distances below the next expected one that a [`Window`] keeps a mark
/// for.
pub const WINDOW_MARKS: usize = 64;
