//! The reference implementation, and then the library, on tokens that other
//! programs computed.

use reference::{md5, TokenTerms, Wrap, FRONT};
use support::must_be_octets;
use support::programs::{Program, LIBRARY, REFERENCE};

use crate::data::{computed, octets, tokens};

const SEQUENCE: u32 = 16_909_060;

fn terms(export: bool, acceptor: bool) -> TokenTerms {
    TokenTerms {
        key: std::array::from_fn(|i| i as u8),
        export,
        acceptor,
    }
}

fn wrap(sequence: u32, sealed: bool, message: &[u8]) -> Wrap {
    Wrap {
        sequence,
        confounder: std::array::from_fn(|i| 0xc0 + i as u8),
        sealed,
        message: message.to_vec(),
    }
}

/// The checks of the reference implementation and of the library.
trait Checks {
    fn mic(&self, terms: &TokenTerms, data: &[u8]) -> Vec<u8>;
    fn wrap(&self, terms: &TokenTerms, wrap: &Wrap) -> Vec<u8>;
    fn check_mics(&self);
    fn check_wraps(&self);
    fn check_long_wraps(&self);
}

impl Checks for Program {
    /// The MIC of `data`, and that it is read.
    fn mic(&self, terms: &TokenTerms, data: &[u8]) -> Vec<u8> {
        let written = (self.mic_write)(terms, SEQUENCE, data, &[0; 24], 0);
        assert_eq!((written.number, written.len), (0, 24));
        let read = (self.mic_read)(terms, data, &written.buf, 0, 24);
        assert_eq!(read.answer(), (0, SEQUENCE, 0, 0));
        written.buf
    }

    /// The Wrap token, and that it opens again.
    fn wrap(&self, terms: &TokenTerms, wrap: &Wrap) -> Vec<u8> {
        let len = wrap.message.len();
        let plain = [&[0; FRONT], &wrap.message[..], &[0]].concat();
        let written = (self.wrap_write)(terms, wrap, &plain, 0, len);
        assert_eq!((written.number, written.len), (0, len + 33));
        let opened = (self.wrap_open)(terms, &written.buf, 0, len + 33);
        let answer = (0, wrap.sequence, wrap.sealed.into(), len);
        assert_eq!(opened.answer(), answer);
        must_be_octets(&opened.buf[..24], &written.buf[..24], terms.name());
        must_be_octets(&opened.buf[24..], &wrap.plain(1), terms.name());
        written.buf
    }

    fn check_mics(&self) {
        for (export, acceptor, kiln, empty) in tokens::MICS {
            let terms = terms(export, acceptor);
            must_be_octets(&self.mic(&terms, b"kiln"), &octets(kiln), terms.name());
            must_be_octets(&self.mic(&terms, b""), &octets(empty), terms.name());
        }
        for (export, token) in tokens::LONG_MICS {
            let mic = self.mic(&terms(export, false), &computed::long_data());
            must_be_octets(&mic, &octets(token), export);
        }
    }

    fn check_wraps(&self) {
        for (message, wraps) in [(&b"kiln"[..], tokens::WRAPS), (b"", tokens::EMPTY_WRAPS)] {
            for (export, acceptor, sealed, token) in wraps {
                let terms = terms(export, acceptor);
                let written = self.wrap(&terms, &wrap(SEQUENCE, sealed, message));
                must_be_octets(&written, &octets(token), (terms.name(), sealed));
            }
        }
        for (sequence, export, token) in tokens::NUMBERED_WRAPS {
            let written = self.wrap(&terms(export, false), &wrap(sequence, true, b"kiln"));
            must_be_octets(&written, &octets(token), (sequence, export));
        }
    }

    fn check_long_wraps(&self) {
        for (export, sealed, first, last, digest) in tokens::LONG_WRAPS {
            let wrap = wrap(SEQUENCE, sealed, &computed::long_data());
            let token = self.wrap(&terms(export, true), &wrap);
            must_be_octets(&token[..40], &octets(first), (export, sealed));
            must_be_octets(&token[32_785..], &octets(last), (export, sealed));
            must_be_octets(&md5(&token), &octets(digest), (export, sealed));
        }
    }
}

#[test]
fn reference_mics_are_the_computed_ones() {
    REFERENCE.check_mics();
}

#[test]
fn reference_wrap_tokens_are_the_computed_ones() {
    REFERENCE.check_wraps();
    REFERENCE.check_long_wraps();
}

#[test]
fn library_mics_are_the_computed_ones() {
    LIBRARY.check_mics();
}

#[test]
fn library_wrap_tokens_are_the_computed_ones() {
    LIBRARY.check_wraps();
    LIBRARY.check_long_wraps();
}
