//! The reference implementation, and then the library, on values that other
//! programs computed.

use reference::{outcomes, Outcome, Terms, HEADER, USAGES};
use support::{calls, must_be_octets};

use crate::data::{computed, octets};

/// The refusal number and the octets written.
type Answer = (u32, [u8; 16]);

/// What is tested: the reference implementation or the library.
struct Program {
    password_key: fn(&[u16]) -> Answer,
    checksum: fn(&[u8; 16], u32, &[u8]) -> Answer,
    encrypt: fn(&Terms, &[u8; 8], &[u8], usize, usize) -> Outcome,
    decrypt: fn(&Terms, &[u8], usize, usize) -> Outcome,
}

const REFERENCE: Program = Program {
    password_key: |units| (0, reference::password_key(units)),
    checksum: |key, usage, data| (0, reference::checksum(key, usage, data)),
    encrypt: outcomes::encrypt,
    decrypt: outcomes::decrypt,
};

const LIBRARY: Program = Program {
    password_key: calls::password_key,
    checksum: calls::checksum,
    encrypt: calls::encrypt,
    decrypt: calls::decrypt,
};

fn key() -> [u8; 16] {
    std::array::from_fn(|i| i as u8)
}

fn confounder() -> [u8; 8] {
    std::array::from_fn(|i| 0xc0 + i as u8)
}

impl Program {
    /// The message of `data`, and that it opens again.
    fn message(&self, export: bool, usage: u32, data: &[u8]) -> Vec<u8> {
        let key = key();
        let terms = Terms { key, export, usage };
        let plain = [&[0; HEADER], data].concat();
        let sealed = (self.encrypt)(&terms, &confounder(), &plain, 0, data.len());
        assert_eq!((sealed.number, sealed.len), (0, HEADER + data.len()));

        let opened = (self.decrypt)(&terms, &sealed.buf, 0, sealed.len);
        assert_eq!((opened.number, opened.len), (0, data.len()));
        must_be_octets(&opened.buf[..16], &sealed.buf[..16], usage);
        must_be_octets(&opened.buf[16..HEADER], &confounder(), usage);
        must_be_octets(&opened.buf[HEADER..], data, usage);
        sealed.buf
    }

    fn check_messages(&self) {
        for (usage, message) in USAGES.zip(computed::FULL_MESSAGES) {
            must_be_octets(
                &self.message(false, usage, b"kiln"),
                &octets(message),
                usage,
            );
        }
        for (usage, message) in USAGES.zip(computed::EXPORT_MESSAGES) {
            must_be_octets(&self.message(true, usage, b"kiln"), &octets(message), usage);
        }
        for (usage, export, message) in computed::EMPTY_MESSAGES {
            must_be_octets(&self.message(export, usage, b""), &octets(message), usage);
        }
    }

    fn check_long_messages(&self) {
        for (export, first, last, digest) in computed::LONG_MESSAGES {
            let message = self.message(export, 13, &computed::long_data());
            must_be_octets(&message[..24], &octets(first), export);
            must_be_octets(&message[32_776..], &octets(last), export);
            must_be_octets(&reference::md5(&message), &octets(digest), export);
        }
    }

    fn check_checksum(&self, usage: u32, data: &[u8], expected: &str) {
        let (number, checksum) = (self.checksum)(&key(), usage, data);
        assert_eq!(number, 0, "{usage}");
        must_be_octets(&checksum, &octets(expected), usage);
    }

    fn check_checksums(&self) {
        for (usage, expected) in USAGES.zip(computed::CHECKSUMS) {
            self.check_checksum(usage, b"kiln", expected);
        }
        self.check_checksum(6, b"", computed::EMPTY_CHECKSUM);
        self.check_checksum(6, &computed::long_data(), computed::LONG_CHECKSUM);
    }

    fn check_password_key(&self, units: &[u16], expected: &str) {
        let (number, key) = (self.password_key)(units);
        assert_eq!(number, 0, "{units:04x?}");
        must_be_octets(&key, &octets(expected), units);
    }

    fn check_password_keys(&self) {
        for (units, expected) in computed::PASSWORD_KEYS {
            self.check_password_key(units, expected);
        }
        let units: Vec<u16> = (0..256).map(|i| 257 * i).collect();
        self.check_password_key(&units, computed::LONG_PASSWORD_KEY);
    }
}

#[test]
fn reference_messages_are_the_computed_ones() {
    REFERENCE.check_messages();
    REFERENCE.check_long_messages();
}

#[test]
fn reference_checksums_are_the_computed_ones() {
    REFERENCE.check_checksums();
}

#[test]
fn reference_password_keys_are_the_computed_ones() {
    REFERENCE.check_password_keys();
}

#[test]
fn library_messages_are_the_computed_ones() {
    LIBRARY.check_messages();
    LIBRARY.check_long_messages();
}

#[test]
fn library_checksums_are_the_computed_ones() {
    LIBRARY.check_checksums();
}

#[test]
fn library_password_keys_are_the_computed_ones() {
    LIBRARY.check_password_keys();
}
