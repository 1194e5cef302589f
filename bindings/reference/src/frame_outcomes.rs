//! What the five calls for framed tokens must answer and leave, for any
//! arguments.

use super::frame::{frame, lead, read_lead};
use super::outcomes::{is_inside, Outcome};
use super::token::{TokenTerms, Wrap, FRONT, MIC};
use super::token_outcomes::{self, Reading, MESSAGE_MAX};

pub fn mic_write(
    terms: &TokenTerms,
    sequence: u32,
    data: &[u8],
    buf: &[u8],
    start: usize,
) -> Outcome {
    if data.len() > MESSAGE_MAX {
        Outcome::refused(1, buf)
    } else if !is_inside(start, lead(MIC).len() + MIC, buf.len()) {
        Outcome::refused(2, buf)
    } else {
        let framed = frame(&terms.mic(sequence, data));
        Outcome::done(framed.len(), buf, start, &framed)
    }
}

/// The region is refused with 2 or 9, or read as the reader of tokens reads the
/// token in it, whose place and length are these.
fn read(
    buf: &[u8],
    start: usize,
    length: usize,
    read_token: impl FnOnce(usize, usize) -> Reading,
) -> Reading {
    if !is_inside(start, length, buf.len()) {
        return Reading::refused(2, buf);
    }
    match read_lead(&buf[start..][..length]) {
        Some(lead) => read_token(start + lead, length - lead),
        None => Reading::refused(9, buf),
    }
}

pub fn mic_read(
    terms: &TokenTerms,
    data: &[u8],
    buf: &[u8],
    start: usize,
    length: usize,
) -> Reading {
    read(buf, start, length, |at, len| {
        token_outcomes::mic_read(terms, data, buf, at, len)
    })
}

/// The refusal number and the lead.
pub fn wrap_lead(message_len: usize) -> (u32, usize) {
    if message_len > MESSAGE_MAX {
        (1, 0)
    } else {
        (0, lead(FRONT + message_len + 1).len())
    }
}

/// The message stands in the buffer; that of `wrap` is not looked at.
pub fn wrap_write(
    terms: &TokenTerms,
    wrap: &Wrap,
    buf: &[u8],
    start: usize,
    message_len: usize,
) -> Outcome {
    if message_len > MESSAGE_MAX {
        return Outcome::refused(1, buf);
    }
    let front = lead(FRONT + message_len + 1).len() + FRONT;
    if !is_inside(start, front + message_len + 1, buf.len()) {
        return Outcome::refused(2, buf);
    }
    let wrap = Wrap {
        message: buf[start + front..][..message_len].to_vec(),
        ..*wrap
    };
    let framed = frame(&terms.wrap(&wrap));
    Outcome::done(framed.len(), buf, start, &framed)
}

/// The lead and the token's octets 0 to 23 stay as they came.
pub fn wrap_open(terms: &TokenTerms, buf: &[u8], start: usize, length: usize) -> Reading {
    read(buf, start, length, |at, len| {
        token_outcomes::wrap_open(terms, buf, at, len)
    })
}
