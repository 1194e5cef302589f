//! Assertions about octets and about what a call returns and leaves. They fail
//! with the first octet that differs, not with whole buffers.

use std::fmt::Debug;

use reference::{Outcome, Reading, Receipt};

#[track_caller]
pub fn must_be_octets(octets: &[u8], expected: &[u8], what: impl Debug) {
    assert_eq!(octets.len(), expected.len(), "{what:?}");
    let differs = octets.iter().zip(expected).position(|(a, b)| a != b);
    assert_eq!(differs, None, "the first wrong offset: {what:?}");
}

/// What a call of the library returns and leaves, beside what it must.
pub trait MustBe {
    fn must_be(&self, expected: &Self, what: impl Debug);
}

impl MustBe for Outcome {
    #[track_caller]
    fn must_be(&self, expected: &Outcome, what: impl Debug) {
        assert_eq!(
            (self.number, self.len),
            (expected.number, expected.len),
            "{what:?}"
        );
        must_be_octets(&self.buf, &expected.buf, what);
    }
}

impl MustBe for Reading {
    #[track_caller]
    fn must_be(&self, expected: &Reading, what: impl Debug) {
        assert_eq!(self.answer(), expected.answer(), "{what:?}");
        must_be_octets(&self.buf, &expected.buf, what);
    }
}

impl MustBe for Receipt {
    #[track_caller]
    fn must_be(&self, expected: &Receipt, what: impl Debug) {
        assert_eq!(
            (self.reading.number, self.status, self.words),
            (expected.reading.number, expected.status, expected.words),
            "{what:?}"
        );
        self.reading.must_be(&expected.reading, what);
    }
}
