//! What the four token calls must answer and leave, for any arguments.

use super::outcomes::{is_inside, Outcome};
use super::token::{TokenTerms, Wrap, FRONT, MIC};

/// The longest message, and the longest data of a MIC.
pub const MESSAGE_MAX: usize = 32_768;

/// The refusal number, all that a reader answers and the buffer afterwards.
/// A MIC reader answers a sequence number only.
pub struct Reading {
    pub number: u32,
    pub sequence: u32,
    pub sealed: u32,
    pub len: usize,
    pub buf: Vec<u8>,
}

impl Reading {
    pub fn refused(number: u32, buf: &[u8]) -> Reading {
        Reading {
            number,
            sequence: 0,
            sealed: 0,
            len: 0,
            buf: buf.to_vec(),
        }
    }

    /// The number, the sequence number, sealed and the length.
    pub fn answer(&self) -> (u32, u32, u32, usize) {
        (self.number, self.sequence, self.sealed, self.len)
    }
}

pub fn mic_write(
    terms: &TokenTerms,
    sequence: u32,
    data: &[u8],
    buf: &[u8],
    start: usize,
) -> Outcome {
    if data.len() > MESSAGE_MAX {
        Outcome::refused(1, buf)
    } else if !is_inside(start, MIC, buf.len()) {
        Outcome::refused(2, buf)
    } else {
        Outcome::done(MIC, buf, start, &terms.mic(sequence, data))
    }
}

pub fn mic_read(
    terms: &TokenTerms,
    data: &[u8],
    buf: &[u8],
    start: usize,
    length: usize,
) -> Reading {
    if length != MIC || data.len() > MESSAGE_MAX {
        return Reading::refused(1, buf);
    }
    if !is_inside(start, length, buf.len()) {
        return Reading::refused(2, buf);
    }
    match terms.read_mic(&buf[start..][..length], data) {
        Ok(sequence) => Reading {
            sequence,
            ..Reading::refused(0, buf)
        },
        Err(number) => Reading::refused(number, buf),
    }
}

/// The message stands in the buffer; that of `wrap` is not looked at.
pub fn wrap_write(
    terms: &TokenTerms,
    wrap: &Wrap,
    buf: &[u8],
    start: usize,
    message_len: usize,
) -> Outcome {
    if message_len > MESSAGE_MAX {
        Outcome::refused(1, buf)
    } else if !is_inside(start, FRONT + message_len + 1, buf.len()) {
        Outcome::refused(2, buf)
    } else {
        let wrap = Wrap {
            message: buf[start + FRONT..][..message_len].to_vec(),
            ..*wrap
        };
        let token = terms.wrap(&wrap);
        Outcome::done(token.len(), buf, start, &token)
    }
}

/// Octets 0 to 23 stay as they came.
pub fn wrap_open(terms: &TokenTerms, buf: &[u8], start: usize, length: usize) -> Reading {
    if !(FRONT + 1..=FRONT + MESSAGE_MAX + 1).contains(&length) {
        return Reading::refused(1, buf);
    }
    if !is_inside(start, length, buf.len()) {
        return Reading::refused(2, buf);
    }
    match terms.open_wrap(&buf[start..][..length]) {
        Ok(opening) => Reading {
            number: 0,
            sequence: opening.sequence,
            sealed: opening.sealed.into(),
            len: length - FRONT - 1,
            buf: Outcome::done(0, buf, start + 24, &opening.plain).buf,
        },
        Err(number) => Reading::refused(number, buf),
    }
}
