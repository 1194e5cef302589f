//! The token calls of [`raw`], with the frame or without, on slices.

use crate::lent::apart_from;
use crate::raw::{self, MicRead, MicWrite, WrapOpen, WrapWrite};
use crate::{Context, Opened, Refusal, CONFOUNDER_LEN};

/// Four functions of the archive; there are no others than [`TOKENS`] and
/// [`FRAMED`].
pub(crate) struct TokenCalls {
    mic_write: MicWrite,
    mic_read: MicRead,
    wrap_write: WrapWrite,
    wrap_open: WrapOpen,
}

/// Without the frame.
pub(crate) const TOKENS: TokenCalls = TokenCalls {
    mic_write: raw::rc4hmac_mic_write,
    mic_read: raw::rc4hmac_mic_read,
    wrap_write: raw::rc4hmac_wrap_write,
    wrap_open: raw::rc4hmac_wrap_open,
};

/// In the frame.
pub(crate) const FRAMED: TokenCalls = TokenCalls {
    mic_write: raw::rc4hmac_framed_mic_write,
    mic_read: raw::rc4hmac_framed_mic_read,
    wrap_write: raw::rc4hmac_framed_wrap_write,
    wrap_open: raw::rc4hmac_framed_wrap_open,
};

impl TokenCalls {
    #[inline]
    pub(crate) fn mic_write(
        &self,
        context: &Context,
        sequence: u32,
        data: &[u8],
        buf: &mut [u8],
        start: usize,
    ) -> Result<usize, Refusal> {
        let key = apart_from(&[data], &context.key);
        let mut written = 0;
        // SAFETY: `key` has KEY_LEN octets, `data` is a slice, and they share
        // none; `buf` and `written` are borrowed alone.
        let answer = unsafe {
            (self.mic_write)(
                key.as_ptr().cast(),
                context.strength.export(),
                context.sender.acceptor(),
                sequence,
                data.as_ptr(),
                data.len(),
                buf.as_mut_ptr(),
                buf.len(),
                start,
                &mut written,
            )
        };
        Refusal::check(answer).map(|()| written)
    }

    #[inline]
    pub(crate) fn mic_read(
        &self,
        context: &Context,
        data: &[u8],
        buf: &[u8],
        start: usize,
        length: usize,
    ) -> Result<u32, Refusal> {
        let key = apart_from(&[data, buf], &context.key);
        let data = apart_from(&[buf], data);
        let mut sequence = 0;
        // SAFETY: `key` has KEY_LEN octets, the others are slices, and no two
        // of them share an octet; `sequence` is borrowed alone.
        let answer = unsafe {
            (self.mic_read)(
                key.as_ptr().cast(),
                context.strength.export(),
                context.sender.acceptor(),
                data.as_ptr(),
                data.len(),
                buf.as_ptr(),
                buf.len(),
                start,
                length,
                &mut sequence,
            )
        };
        Refusal::check(answer).map(|()| sequence)
    }

    #[inline]
    #[allow(clippy::too_many_arguments)]
    pub(crate) fn wrap_write(
        &self,
        context: &Context,
        sequence: u32,
        confounder: &[u8; CONFOUNDER_LEN],
        sealed: bool,
        buf: &mut [u8],
        start: usize,
        message_len: usize,
    ) -> Result<usize, Refusal> {
        let key = apart_from(&[confounder], &context.key);
        let mut written = 0;
        // SAFETY: `key` has KEY_LEN octets and shares none with `confounder`;
        // `buf` and `written` are borrowed alone.
        let answer = unsafe {
            (self.wrap_write)(
                key.as_ptr().cast(),
                context.strength.export(),
                context.sender.acceptor(),
                sequence,
                confounder,
                sealed.into(),
                buf.as_mut_ptr(),
                buf.len(),
                start,
                message_len,
                &mut written,
            )
        };
        Refusal::check(answer).map(|()| written)
    }

    #[inline]
    pub(crate) fn wrap_open(
        &self,
        context: &Context,
        buf: &mut [u8],
        start: usize,
        length: usize,
    ) -> Result<Opened, Refusal> {
        let (mut sequence, mut sealed, mut message_len) = (0, 0, 0);
        // SAFETY: `buf` and the three numbers are borrowed alone, apart from
        // the key.
        let answer = unsafe {
            (self.wrap_open)(
                &context.key,
                context.strength.export(),
                context.sender.acceptor(),
                buf.as_mut_ptr(),
                buf.len(),
                start,
                length,
                &mut sequence,
                &mut sealed,
                &mut message_len,
            )
        };
        Refusal::check(answer).map(|()| Opened {
            sequence,
            sealed: sealed != 0,
            message_len,
        })
    }
}
