//! The two forms of tokens, without the frame and in it: the calls of the library,
//! each compared with the reference implementation's.

use reference::{frame_outcomes, lead, Outcome, Reading, Receipt, TokenTerms, Words, Wrap};
use reference::{FRONT, MIC};

use super::{Program, Receiver, FRAMED_RECEIVER, FRAMED_REFERENCE, RECEIVER, REFERENCE};
use crate::calls::{self, ReceiveCalls, TokenCalls};
use crate::MustBe;

/// The raw functions, what they must answer and leave, and what stands before a
/// token of some length.
pub struct Form {
    pub name: &'static str,
    pub calls: TokenCalls,
    pub expected: Program,
    pub receive: ReceiveCalls,
    pub expected_receipts: Receiver,
    lead: fn(usize) -> Vec<u8>,
}

pub static TOKENS: Form = Form {
    name: "without the frame",
    calls: calls::TOKENS,
    expected: REFERENCE,
    receive: calls::RECEIVE,
    expected_receipts: RECEIVER,
    lead: |_| Vec::new(),
};

pub static FRAMED: Form = Form {
    name: "in the frame",
    calls: calls::FRAMED,
    expected: FRAMED_REFERENCE,
    receive: calls::RECEIVE_FRAMED,
    expected_receipts: FRAMED_RECEIVER,
    lead,
};

pub static FORMS: [&Form; 2] = [&TOKENS, &FRAMED];

/// The refusal number and the lead.
#[track_caller]
pub fn framed_wrap_lead(message_len: usize) -> (u32, usize) {
    let answer = calls::framed_wrap_lead(message_len);
    let expected = frame_outcomes::wrap_lead(message_len);
    assert_eq!(answer, expected, "{message_len}");
    answer
}

impl Form {
    /// The octets of a Wrap token before its message.
    pub fn front(&self, message_len: usize) -> usize {
        (self.lead)(FRONT + message_len + 1).len() + FRONT
    }

    /// The octets of a Wrap token.
    pub fn wrap_len(&self, message_len: usize) -> usize {
        self.front(message_len) + message_len + 1
    }

    /// The octets of a MIC token.
    pub fn mic_len(&self) -> usize {
        (self.lead)(MIC).len() + MIC
    }

    /// The token as it stands in a buffer.
    pub fn form(&self, token: &[u8]) -> Vec<u8> {
        [&(self.lead)(token.len())[..], token].concat()
    }

    #[track_caller]
    pub fn mic_write(
        &self,
        terms: &TokenTerms,
        sequence: u32,
        data: &[u8],
        buf: &[u8],
        start: usize,
    ) -> Outcome {
        let outcome = self.calls.mic_write(terms, sequence, data, buf, start);
        let expected = (self.expected.mic_write)(terms, sequence, data, buf, start);
        let what = (terms.name(), sequence, data.len(), buf.len(), start);
        outcome.must_be(&expected, what);
        outcome
    }

    #[track_caller]
    pub fn mic_read(
        &self,
        terms: &TokenTerms,
        data: &[u8],
        buf: &[u8],
        start: usize,
        length: usize,
    ) -> Reading {
        let reading = self.calls.mic_read(terms, data, buf, start, length);
        let expected = (self.expected.mic_read)(terms, data, buf, start, length);
        let what = (terms.name(), data.len(), buf.len(), start, length);
        reading.must_be(&expected, what);
        reading
    }

    /// The message stands in the buffer; that of `wrap` is not looked at.
    #[track_caller]
    pub fn wrap_write(
        &self,
        terms: &TokenTerms,
        wrap: &Wrap,
        buf: &[u8],
        start: usize,
        message_len: usize,
    ) -> Outcome {
        let outcome = self.calls.wrap_write(terms, wrap, buf, start, message_len);
        let expected = (self.expected.wrap_write)(terms, wrap, buf, start, message_len);
        let what = (terms.name(), wrap.sealed, buf.len(), start, message_len);
        outcome.must_be(&expected, what);
        outcome
    }

    #[track_caller]
    pub fn wrap_open(
        &self,
        terms: &TokenTerms,
        buf: &[u8],
        start: usize,
        length: usize,
    ) -> Reading {
        let reading = self.calls.wrap_open(terms, buf, start, length);
        let expected = (self.expected.wrap_open)(terms, buf, start, length);
        let what = (terms.name(), buf.len(), start, length);
        reading.must_be(&expected, what);
        reading
    }
    #[track_caller]
    pub fn receive_wrap(
        &self,
        words: Words,
        terms: &TokenTerms,
        buf: &[u8],
        start: usize,
        length: usize,
    ) -> Receipt {
        let receipt = self.receive.wrap(words, terms, buf, start, length);
        let expected = (self.expected_receipts.wrap)(words, terms, buf, start, length);
        let what = (self.name, terms.name(), words, buf.len(), start, length);
        receipt.must_be(&expected, what);
        receipt
    }

    #[track_caller]
    pub fn receive_mic(
        &self,
        words: Words,
        terms: &TokenTerms,
        data: &[u8],
        buf: &[u8],
        start: usize,
        length: usize,
    ) -> Receipt {
        let receipt = self.receive.mic(words, terms, data, buf, start, length);
        let expected = (self.expected_receipts.mic)(words, terms, data, buf, start, length);
        let what = (self.name, terms.name(), words, data.len(), start, length);
        receipt.must_be(&expected, what);
        receipt
    }
}
