//! The window calls on slices, and with any numbers for yes and no.

use rc4hmac::raw::{self, ReceiveMic, ReceiveWrap};
use reference::{Reading, Receipt, TokenTerms, Words};

use super::tokens::{Flags, NUMBER_BEFORE};
use super::LEN_BEFORE;

/// What a window to be made holds before the call.
const WORD_BEFORE: u64 = 0xa5a5_a5a5_a5a5_a5a5;

/// Fails for another answer than 0, as the two below do.
#[track_caller]
pub fn window_new(first: u32) -> Words {
    let mut words = [WORD_BEFORE; 4];
    // SAFETY: the tests lend areas that do not overlap, here and below.
    let number = unsafe { raw::rc4hmac_window_new(first, &mut words) };
    assert_eq!(number, 0, "window_new");
    words
}

/// The status.
#[track_caller]
pub fn window_bill(words: &mut Words, sequence: u32) -> u32 {
    let mut status = NUMBER_BEFORE;
    let number = unsafe { raw::rc4hmac_window_bill(words, sequence, &mut status) };
    assert_eq!(number, 0, "window_bill");
    status
}

#[track_caller]
pub fn window_missing(words: &Words) -> u32 {
    let mut missing = NUMBER_BEFORE;
    let number = unsafe { raw::rc4hmac_window_missing(words, &mut missing) };
    assert_eq!(number, 0, "window_missing");
    missing
}

pub fn receive_wrap(
    words: Words,
    terms: &TokenTerms,
    buf: &[u8],
    start: usize,
    length: usize,
) -> Receipt {
    RECEIVE.wrap(words, terms, buf, start, length)
}

pub fn receive_mic(
    words: Words,
    terms: &TokenTerms,
    data: &[u8],
    buf: &[u8],
    start: usize,
    length: usize,
) -> Receipt {
    RECEIVE.mic(words, terms, data, buf, start, length)
}

/// The raw functions that open or read a token and bill it.
pub struct ReceiveCalls {
    pub wrap: ReceiveWrap,
    pub mic: ReceiveMic,
}

/// Without the frame.
pub const RECEIVE: ReceiveCalls = ReceiveCalls {
    wrap: raw::rc4hmac_receive_wrap,
    mic: raw::rc4hmac_receive_mic,
};

/// In the frame.
pub const RECEIVE_FRAMED: ReceiveCalls = ReceiveCalls {
    wrap: raw::rc4hmac_receive_framed_wrap,
    mic: raw::rc4hmac_receive_framed_mic,
};

impl ReceiveCalls {
    pub fn wrap(
        &self,
        words: Words,
        terms: &TokenTerms,
        buf: &[u8],
        start: usize,
        length: usize,
    ) -> Receipt {
        let (flags, mut buf) = (Flags::of(terms), buf.to_vec());
        self.wrap_in_place(words, flags, &terms.key, &mut buf, start, length)
    }

    pub fn mic(
        &self,
        words: Words,
        terms: &TokenTerms,
        data: &[u8],
        buf: &[u8],
        start: usize,
        length: usize,
    ) -> Receipt {
        let (flags, key) = (Flags::of(terms), &terms.key);
        self.mic_in_place(words, flags, key, data, buf, start, length)
    }

    pub fn wrap_in_place(
        &self,
        mut words: Words,
        flags: Flags,
        key: &[u8; 16],
        buf: &mut [u8],
        start: usize,
        length: usize,
    ) -> Receipt {
        let [mut sequence, mut sealed, mut status] = [NUMBER_BEFORE; 3];
        let mut len = LEN_BEFORE;
        let number = unsafe {
            (self.wrap)(
                &mut words,
                key,
                flags.export_strength,
                flags.acceptor,
                buf.as_mut_ptr(),
                buf.len(),
                start,
                length,
                &mut sequence,
                &mut sealed,
                &mut len,
                &mut status,
            )
        };
        let reading = Reading {
            number,
            sequence,
            sealed,
            len,
            buf: buf.to_vec(),
        };
        Receipt {
            reading,
            status,
            words,
        }
    }

    #[allow(clippy::too_many_arguments)]
    pub fn mic_in_place(
        &self,
        mut words: Words,
        flags: Flags,
        key: &[u8; 16],
        data: &[u8],
        buf: &[u8],
        start: usize,
        length: usize,
    ) -> Receipt {
        let [mut sequence, mut status] = [NUMBER_BEFORE; 2];
        let number = unsafe {
            (self.mic)(
                &mut words,
                key,
                flags.export_strength,
                flags.acceptor,
                data.as_ptr(),
                data.len(),
                buf.as_ptr(),
                buf.len(),
                start,
                length,
                &mut sequence,
                &mut status,
            )
        };
        let reading = Reading {
            number,
            sequence,
            sealed: 0,
            len: 0,
            buf: buf.to_vec(),
        };
        Receipt {
            reading,
            status,
            words,
        }
    }
}
