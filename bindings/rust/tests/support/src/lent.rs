//! Token calls over areas between guard octets: what they answer and every
//! octet afterwards, without the frame and in it.

use reference::{Outcome, Reading, TokenTerms, Wrap};

use crate::areas::Guarded;
use crate::programs::Form;
use crate::{must_be_octets, Inputs};

/// What a token call is lent, each area between guard octets.
pub struct Lent {
    form: &'static Form,
    pub key: Guarded,
    pub confounder: Guarded,
    pub data: Guarded,
    pub buf: Guarded,
    pub sequence: Guarded,
    pub sealed: Guarded,
    pub len: Guarded,
}

impl Lent {
    /// Only the numbers that are written have to be aligned.
    pub fn new(
        inputs: &mut Inputs,
        form: &'static Form,
        buf_len: usize,
        data_len: usize,
        alignment: usize,
    ) -> Lent {
        Lent {
            form,
            key: Guarded::new(inputs, 16, (alignment * 3 + 1) % 16),
            confounder: Guarded::new(inputs, 8, (alignment * 5 + 2) % 16),
            data: Guarded::new(inputs, data_len, (alignment * 7 + 3) % 16),
            buf: Guarded::new(inputs, buf_len, alignment),
            sequence: Guarded::new(inputs, 4, alignment / 4 * 4),
            sealed: Guarded::new(inputs, 4, (alignment / 4 * 4 + 4) % 16),
            len: Guarded::new(inputs, 8, alignment / 8 * 8),
        }
    }

    pub fn terms(&self, export: bool, acceptor: bool) -> TokenTerms {
        TokenTerms {
            key: self.key.lent().try_into().unwrap(),
            export,
            acceptor,
        }
    }

    fn areas(&self) -> [Vec<u8>; 7] {
        [
            &self.key,
            &self.confounder,
            &self.data,
            &self.buf,
            &self.sequence,
            &self.sealed,
            &self.len,
        ]
        .map(|area| area.octets.clone())
    }

    /// All octets afterwards are those written here, or as they were.
    #[track_caller]
    fn check(&mut self, number: u32, after: [Vec<u8>; 7], call: impl FnOnce(&mut Lent) -> u32) {
        assert_eq!(call(self), number);
        let names = [
            "key",
            "confounder",
            "data",
            "buffer",
            "sequence",
            "sealed",
            "length",
        ];
        for ((area, expected), name) in self.areas().iter().zip(&after).zip(names) {
            must_be_octets(area, expected, name);
        }
    }

    /// The areas after a writer's outcome.
    fn written(&self, expected: &Outcome) -> [Vec<u8>; 7] {
        let mut after = self.areas();
        after[3] = self.buf.with(&expected.buf);
        after[6] = self.len.with(&expected.len.to_ne_bytes());
        after
    }

    pub fn mic_write(&mut self, terms: &TokenTerms, sequence: u32, start: usize) -> Outcome {
        let (data, buf) = (self.data.lent(), self.buf.lent());
        let (data_len, buf_len) = (data.len(), buf.len());
        let expected = (self.form.expected.mic_write)(terms, sequence, data, buf, start);
        let after = self.written(&expected);
        // SAFETY: separate vectors with room for the lengths, here and below.
        self.check(expected.number, after, |lent| unsafe {
            (lent.form.calls.mic_write)(
                lent.key.ptr().cast(),
                terms.export.into(),
                terms.acceptor.into(),
                sequence,
                lent.data.ptr(),
                data_len,
                lent.buf.ptr(),
                buf_len,
                start,
                lent.len.ptr().cast(),
            )
        });
        expected
    }

    pub fn mic_read(&mut self, terms: &TokenTerms, start: usize, length: usize) -> Reading {
        let (data, buf) = (self.data.lent(), self.buf.lent());
        let (data_len, buf_len) = (data.len(), buf.len());
        let expected = (self.form.expected.mic_read)(terms, data, buf, start, length);
        let mut after = self.areas();
        after[4] = self.sequence.with(&expected.sequence.to_ne_bytes());
        self.check(expected.number, after, |lent| unsafe {
            (lent.form.calls.mic_read)(
                lent.key.ptr().cast(),
                terms.export.into(),
                terms.acceptor.into(),
                lent.data.ptr(),
                data_len,
                lent.buf.ptr(),
                buf_len,
                start,
                length,
                lent.sequence.ptr().cast(),
            )
        });
        expected
    }

    pub fn wrap_write(
        &mut self,
        terms: &TokenTerms,
        sealed: bool,
        start: usize,
        len: usize,
    ) -> Outcome {
        let wrap = Wrap {
            sequence: 0x0102_0304,
            confounder: self.confounder.lent().try_into().unwrap(),
            sealed,
            message: Vec::new(),
        };
        let buf_len = self.buf.lent().len();
        let expected = (self.form.expected.wrap_write)(terms, &wrap, self.buf.lent(), start, len);
        let after = self.written(&expected);
        self.check(expected.number, after, |lent| unsafe {
            (lent.form.calls.wrap_write)(
                lent.key.ptr().cast(),
                terms.export.into(),
                terms.acceptor.into(),
                wrap.sequence,
                lent.confounder.ptr().cast(),
                sealed.into(),
                lent.buf.ptr(),
                buf_len,
                start,
                len,
                lent.len.ptr().cast(),
            )
        });
        expected
    }

    pub fn wrap_open(&mut self, terms: &TokenTerms, start: usize, length: usize) -> Reading {
        let buf_len = self.buf.lent().len();
        let expected = (self.form.expected.wrap_open)(terms, self.buf.lent(), start, length);
        let mut after = self.areas();
        after[3] = self.buf.with(&expected.buf);
        after[4] = self.sequence.with(&expected.sequence.to_ne_bytes());
        after[5] = self.sealed.with(&expected.sealed.to_ne_bytes());
        after[6] = self.len.with(&expected.len.to_ne_bytes());
        self.check(expected.number, after, |lent| unsafe {
            (lent.form.calls.wrap_open)(
                lent.key.ptr().cast(),
                terms.export.into(),
                terms.acceptor.into(),
                lent.buf.ptr(),
                buf_len,
                start,
                length,
                lent.sequence.ptr().cast(),
                lent.sealed.ptr().cast(),
                lent.len.ptr().cast(),
            )
        });
        expected
    }
}
