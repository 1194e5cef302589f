//! The token calls, without the frame or in it, on slices, and with any numbers
//! for yes and no.

use rc4hmac::raw::{self, MicRead, MicWrite, WrapOpen, WrapWrite};
use rc4hmac::{Context, Sender, Strength};
use reference::{Outcome, Reading, TokenTerms, Wrap};

use super::LEN_BEFORE;

/// What a number holds before a call.
pub const NUMBER_BEFORE: u32 = 0xa5a5_a5a5;

/// The arguments for yes and no.
#[derive(Clone, Copy, Debug)]
pub struct Flags {
    pub export_strength: u32,
    pub acceptor: u32,
    pub sealed: u32,
}

impl Flags {
    /// For a token that is not sealed.
    pub fn of(terms: &TokenTerms) -> Flags {
        Flags {
            export_strength: terms.export.into(),
            acceptor: terms.acceptor.into(),
            sealed: 0,
        }
    }
}

/// The raw functions.
pub struct TokenCalls {
    pub mic_write: MicWrite,
    pub mic_read: MicRead,
    pub wrap_write: WrapWrite,
    pub wrap_open: WrapOpen,
}

/// Without the frame.
pub const TOKENS: TokenCalls = TokenCalls {
    mic_write: raw::rc4hmac_mic_write,
    mic_read: raw::rc4hmac_mic_read,
    wrap_write: raw::rc4hmac_wrap_write,
    wrap_open: raw::rc4hmac_wrap_open,
};

/// The same terms for the safe functions.
pub fn context(terms: &TokenTerms) -> Context {
    let (strength, sender) = (terms.export, terms.acceptor);
    Context {
        key: terms.key,
        strength: [Strength::Full, Strength::Export][usize::from(strength)],
        sender: [Sender::Initiator, Sender::Acceptor][usize::from(sender)],
    }
}

pub fn mic_write(
    terms: &TokenTerms,
    sequence: u32,
    data: &[u8],
    buf: &[u8],
    start: usize,
) -> Outcome {
    TOKENS.mic_write(terms, sequence, data, buf, start)
}

pub fn mic_read(
    terms: &TokenTerms,
    data: &[u8],
    buf: &[u8],
    start: usize,
    length: usize,
) -> Reading {
    TOKENS.mic_read(terms, data, buf, start, length)
}

/// The message stands in the buffer; that of `wrap` is not looked at.
pub fn wrap_write(
    terms: &TokenTerms,
    wrap: &Wrap,
    buf: &[u8],
    start: usize,
    message_len: usize,
) -> Outcome {
    TOKENS.wrap_write(terms, wrap, buf, start, message_len)
}

pub fn wrap_open(terms: &TokenTerms, buf: &[u8], start: usize, length: usize) -> Reading {
    TOKENS.wrap_open(terms, buf, start, length)
}

impl TokenCalls {
    pub fn mic_write(
        &self,
        terms: &TokenTerms,
        sequence: u32,
        data: &[u8],
        buf: &[u8],
        start: usize,
    ) -> Outcome {
        self.mic_write_with(Flags::of(terms), &terms.key, sequence, data, buf, start)
    }

    pub fn mic_read(
        &self,
        terms: &TokenTerms,
        data: &[u8],
        buf: &[u8],
        start: usize,
        length: usize,
    ) -> Reading {
        self.mic_read_with(Flags::of(terms), &terms.key, data, buf, start, length)
    }

    /// The message stands in the buffer; that of `wrap` is not looked at.
    pub fn wrap_write(
        &self,
        terms: &TokenTerms,
        wrap: &Wrap,
        buf: &[u8],
        start: usize,
        message_len: usize,
    ) -> Outcome {
        let flags = Flags {
            sealed: wrap.sealed.into(),
            ..Flags::of(terms)
        };
        self.wrap_write_with(flags, &terms.key, wrap, buf, start, message_len)
    }

    pub fn wrap_open(
        &self,
        terms: &TokenTerms,
        buf: &[u8],
        start: usize,
        length: usize,
    ) -> Reading {
        self.wrap_open_with(Flags::of(terms), &terms.key, buf, start, length)
    }

    pub fn mic_write_with(
        &self,
        flags: Flags,
        key: &[u8; 16],
        sequence: u32,
        data: &[u8],
        buf: &[u8],
        start: usize,
    ) -> Outcome {
        let mut buf = buf.to_vec();
        let (number, len) = self.mic_write_in_place(flags, key, sequence, data, &mut buf, start);
        Outcome { number, len, buf }
    }

    pub fn mic_read_with(
        &self,
        flags: Flags,
        key: &[u8; 16],
        data: &[u8],
        buf: &[u8],
        start: usize,
        length: usize,
    ) -> Reading {
        let buf = buf.to_vec();
        let (number, sequence) = self.mic_read_in_place(flags, key, data, &buf, start, length);
        Reading {
            number,
            sequence,
            sealed: 0,
            len: 0,
            buf,
        }
    }

    pub fn wrap_write_with(
        &self,
        flags: Flags,
        key: &[u8; 16],
        wrap: &Wrap,
        buf: &[u8],
        start: usize,
        message_len: usize,
    ) -> Outcome {
        let mut buf = buf.to_vec();
        let (sequence, confounder) = (wrap.sequence, &wrap.confounder);
        let (number, len) = self.wrap_write_in_place(
            flags,
            key,
            sequence,
            confounder,
            &mut buf,
            start,
            message_len,
        );
        Outcome { number, len, buf }
    }

    pub fn wrap_open_with(
        &self,
        flags: Flags,
        key: &[u8; 16],
        buf: &[u8],
        start: usize,
        length: usize,
    ) -> Reading {
        let mut buf = buf.to_vec();
        let (number, sequence, sealed, len) =
            self.wrap_open_in_place(flags, key, &mut buf, start, length);
        Reading {
            number,
            sequence,
            sealed,
            len,
            buf,
        }
    }

    /// The refusal number and the length written.
    pub fn mic_write_in_place(
        &self,
        flags: Flags,
        key: &[u8; 16],
        sequence: u32,
        data: &[u8],
        buf: &mut [u8],
        start: usize,
    ) -> (u32, usize) {
        let mut written = LEN_BEFORE;
        // SAFETY: the tests lend areas that do not overlap, here and below.
        let number = unsafe {
            (self.mic_write)(
                key,
                flags.export_strength,
                flags.acceptor,
                sequence,
                data.as_ptr(),
                data.len(),
                buf.as_mut_ptr(),
                buf.len(),
                start,
                &mut written,
            )
        };
        (number, written)
    }

    /// The refusal number and the sequence number.
    pub fn mic_read_in_place(
        &self,
        flags: Flags,
        key: &[u8; 16],
        data: &[u8],
        buf: &[u8],
        start: usize,
        length: usize,
    ) -> (u32, u32) {
        let mut sequence = NUMBER_BEFORE;
        let number = unsafe {
            (self.mic_read)(
                key,
                flags.export_strength,
                flags.acceptor,
                data.as_ptr(),
                data.len(),
                buf.as_ptr(),
                buf.len(),
                start,
                length,
                &mut sequence,
            )
        };
        (number, sequence)
    }

    /// The refusal number and the length written.
    #[allow(clippy::too_many_arguments)]
    pub fn wrap_write_in_place(
        &self,
        flags: Flags,
        key: &[u8; 16],
        sequence: u32,
        confounder: &[u8; 8],
        buf: &mut [u8],
        start: usize,
        message_len: usize,
    ) -> (u32, usize) {
        let mut written = LEN_BEFORE;
        let number = unsafe {
            (self.wrap_write)(
                key,
                flags.export_strength,
                flags.acceptor,
                sequence,
                confounder,
                flags.sealed,
                buf.as_mut_ptr(),
                buf.len(),
                start,
                message_len,
                &mut written,
            )
        };
        (number, written)
    }

    /// The refusal number, the sequence number, sealed and the message's length.
    pub fn wrap_open_in_place(
        &self,
        flags: Flags,
        key: &[u8; 16],
        buf: &mut [u8],
        start: usize,
        length: usize,
    ) -> (u32, u32, u32, usize) {
        let (mut sequence, mut sealed, mut len) = (NUMBER_BEFORE, NUMBER_BEFORE, LEN_BEFORE);
        let number = unsafe {
            (self.wrap_open)(
                key,
                flags.export_strength,
                flags.acceptor,
                buf.as_mut_ptr(),
                buf.len(),
                start,
                length,
                &mut sequence,
                &mut sealed,
                &mut len,
            )
        };
        (number, sequence, sealed, len)
    }
}
