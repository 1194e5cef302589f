//! The reference implementation, and then the library, on messages and a checksum
//! that are attributed to the tests of MIT krb5.

use reference::{Outcome, Terms, HEADER};
use support::{calls, must_be_octets};

use crate::data::{array, krb5, octets};

/// The confounders are not given: opening tells them.
fn check_messages(
    decrypt: impl Fn(&Terms, &[u8]) -> Outcome,
    encrypt: impl Fn(&Terms, &[u8; 8], &[u8]) -> Outcome,
) {
    for vector in &krb5::MESSAGES {
        let terms = Terms {
            key: array(vector.key),
            export: vector.export,
            usage: vector.usage,
        };
        let (message, data) = (octets(vector.message), vector.data.as_bytes());
        let opened = decrypt(&terms, &message);
        assert_eq!(
            (opened.number, opened.len),
            (0, data.len()),
            "{:?}",
            vector.message
        );
        must_be_octets(&opened.buf[..16], &message[..16], vector.message);
        must_be_octets(&opened.buf[HEADER..], data, vector.message);

        let confounder = opened.buf[16..HEADER].try_into().unwrap();
        let sealed = encrypt(&terms, confounder, &opened.buf);
        assert_eq!(
            (sealed.number, sealed.len),
            (0, message.len()),
            "{:?}",
            vector.message
        );
        must_be_octets(&sealed.buf, &message, vector.message);
    }
}

fn check_checksum(checksum: impl Fn(&[u8; 16], u32, &[u8]) -> [u8; 16]) {
    let (key, data) = (array(krb5::CHECKSUM_KEY), krb5::CHECKSUM_DATA.as_bytes());
    let checksum = checksum(&key, krb5::CHECKSUM_USAGE, data);
    assert_eq!(checksum[..], octets(krb5::CHECKSUM));
}

#[test]
fn reference_opens_and_writes_the_attributed_messages() {
    check_messages(
        |terms, buf| reference::outcomes::decrypt(terms, buf, 0, buf.len()),
        |terms, confounder, buf| {
            reference::outcomes::encrypt(terms, confounder, buf, 0, buf.len() - HEADER)
        },
    );
}

#[test]
fn reference_checksum_gives_the_attributed_checksum() {
    check_checksum(reference::checksum);
}

#[test]
fn library_opens_and_writes_the_attributed_messages() {
    check_messages(
        |terms, buf| calls::decrypt(terms, buf, 0, buf.len()),
        |terms, confounder, buf| calls::encrypt(terms, confounder, buf, 0, buf.len() - HEADER),
    );
}

#[test]
fn library_checksum_gives_the_attributed_checksum() {
    check_checksum(|key, usage, data| {
        let (number, checksum) = calls::checksum(key, usage, data);
        assert_eq!(number, 0);
        assert_eq!(calls::checksum_test(key, usage, data, &checksum), 0);
        checksum
    });
}
