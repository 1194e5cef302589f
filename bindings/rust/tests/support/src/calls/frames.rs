//! The calls for framed tokens.

use rc4hmac::raw;

use super::{TokenCalls, LEN_BEFORE};

/// In the frame.
pub const FRAMED: TokenCalls = TokenCalls {
    mic_write: raw::rc4hmac_framed_mic_write,
    mic_read: raw::rc4hmac_framed_mic_read,
    wrap_write: raw::rc4hmac_framed_wrap_write,
    wrap_open: raw::rc4hmac_framed_wrap_open,
};

/// The refusal number and the lead.
pub fn framed_wrap_lead(message_len: usize) -> (u32, usize) {
    let mut lead = LEN_BEFORE;
    // SAFETY: a number of its own.
    let number = unsafe { raw::rc4hmac_framed_wrap_lead(message_len, &mut lead) };
    (number, lead)
}
