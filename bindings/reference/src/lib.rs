//! The reference implementation: RC4-HMAC written plainly from the published
//! texts alone, for the library to be compared with.
//!
//! It has MD4, MD5, HMAC-MD5 and RC4; the keys, checksums, encrypted messages and
//! tokens of RFC 4757; the frame of RFC 2743; a clerk for receive windows; which
//! number each call of the library returns and what it leaves in the buffer; and
//! the lines that `krbtoken` prints.

mod checksum;
pub mod clerk;
mod frame;
pub mod frame_outcomes;
mod hmac;
mod md4;
mod md5;
mod message;
pub mod outcomes;
mod padding;
mod password;
pub mod printed;
mod rc4;
pub mod receive_outcomes;
mod token;
pub mod token_outcomes;
mod usage;
pub mod window;

pub use checksum::checksum;
pub use clerk::Clerk;
pub use frame::{
    der_length, frame, frame_with, front, lead, long_form, read_lead, Front, MECHANISM, TAG,
};
pub use hmac::hmac_md5;
pub use md4::md4;
pub use md5::md5;
pub use message::{Terms, HEADER};
pub use outcomes::Outcome;
pub use password::password_key;
pub use rc4::rc4;
pub use receive_outcomes::Receipt;
pub use token::{
    TokenTerms, Wrap, CLEAR_HEADER, FRONT, MIC, MIC_HEADER, MIC_MESSAGE_TYPE, PAD, SEALED_HEADER,
    WRAP_MESSAGE_TYPE,
};
pub use token_outcomes::Reading;
pub use usage::{message_type, salt, USAGES};
pub use window::Words;
