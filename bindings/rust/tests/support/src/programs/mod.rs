//! The token calls of the reference implementation and of the library, without
//! the frame and in it, for what is asked of both.

mod forms;

pub use forms::{framed_wrap_lead, Form, FORMS, FRAMED, TOKENS};

use reference::{frame_outcomes, receive_outcomes, token_outcomes};
use reference::{Outcome, Reading, Receipt, TokenTerms, Words, Wrap};

use crate::calls;

pub struct Program {
    pub mic_write: fn(&TokenTerms, u32, &[u8], &[u8], usize) -> Outcome,
    pub mic_read: fn(&TokenTerms, &[u8], &[u8], usize, usize) -> Reading,
    pub wrap_write: fn(&TokenTerms, &Wrap, &[u8], usize, usize) -> Outcome,
    pub wrap_open: fn(&TokenTerms, &[u8], usize, usize) -> Reading,
}

pub type ReceivedWrap = fn(Words, &TokenTerms, &[u8], usize, usize) -> Receipt;
pub type ReceivedMic = fn(Words, &TokenTerms, &[u8], &[u8], usize, usize) -> Receipt;

/// The calls that open or read a token and bill it.
pub struct Receiver {
    pub wrap: ReceivedWrap,
    pub mic: ReceivedMic,
}

pub const RECEIVER: Receiver = Receiver {
    wrap: receive_outcomes::receive_wrap,
    mic: receive_outcomes::receive_mic,
};

pub const FRAMED_RECEIVER: Receiver = Receiver {
    wrap: receive_outcomes::receive_framed_wrap,
    mic: receive_outcomes::receive_framed_mic,
};

pub const REFERENCE: Program = Program {
    mic_write: token_outcomes::mic_write,
    mic_read: token_outcomes::mic_read,
    wrap_write: token_outcomes::wrap_write,
    wrap_open: token_outcomes::wrap_open,
};

pub const LIBRARY: Program = Program {
    mic_write: calls::mic_write,
    mic_read: calls::mic_read,
    wrap_write: calls::wrap_write,
    wrap_open: calls::wrap_open,
};

pub const FRAMED_REFERENCE: Program = Program {
    mic_write: frame_outcomes::mic_write,
    mic_read: frame_outcomes::mic_read,
    wrap_write: frame_outcomes::wrap_write,
    wrap_open: frame_outcomes::wrap_open,
};

pub const FRAMED_LIBRARY: Program = Program {
    mic_write: |terms, sequence, data, buf, start| {
        calls::FRAMED.mic_write(terms, sequence, data, buf, start)
    },
    mic_read: |terms, data, buf, start, length| {
        calls::FRAMED.mic_read(terms, data, buf, start, length)
    },
    wrap_write: |terms, wrap, buf, start, len| {
        calls::FRAMED.wrap_write(terms, wrap, buf, start, len)
    },
    wrap_open: |terms, buf, start, length| calls::FRAMED.wrap_open(terms, buf, start, length),
};
