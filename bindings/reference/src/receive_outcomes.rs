//! What the calls that open a token and bill it must answer and leave, for any
//! arguments and any window.

use super::frame_outcomes;
use super::token::TokenTerms;
use super::token_outcomes::{mic_read, wrap_open, Reading};
use super::window::{bill, Words};

/// What the reader answers, the status and the window afterwards.
pub struct Receipt {
    pub reading: Reading,
    pub status: u32,
    pub words: Words,
}

impl Receipt {
    pub fn refused(number: u32, words: Words, buf: &[u8]) -> Receipt {
        Receipt {
            reading: Reading::refused(number, buf),
            status: 0,
            words,
        }
    }

    fn of(words: Words, reading: Reading) -> Receipt {
        let (status, words) = match reading.number {
            0 => bill(words, reading.sequence),
            _ => (0, words),
        };
        Receipt {
            reading,
            status,
            words,
        }
    }
}

pub fn receive_wrap(
    words: Words,
    terms: &TokenTerms,
    buf: &[u8],
    start: usize,
    length: usize,
) -> Receipt {
    Receipt::of(words, wrap_open(terms, buf, start, length))
}

pub fn receive_mic(
    words: Words,
    terms: &TokenTerms,
    data: &[u8],
    buf: &[u8],
    start: usize,
    length: usize,
) -> Receipt {
    Receipt::of(words, mic_read(terms, data, buf, start, length))
}

pub fn receive_framed_wrap(
    words: Words,
    terms: &TokenTerms,
    buf: &[u8],
    start: usize,
    length: usize,
) -> Receipt {
    let reading = frame_outcomes::wrap_open(terms, buf, start, length);
    Receipt::of(words, reading)
}

pub fn receive_framed_mic(
    words: Words,
    terms: &TokenTerms,
    data: &[u8],
    buf: &[u8],
    start: usize,
    length: usize,
) -> Receipt {
    let reading = frame_outcomes::mic_read(terms, data, buf, start, length);
    Receipt::of(words, reading)
}
