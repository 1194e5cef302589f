//! The reference implementation, and then the library, on published vectors.

use crate::data::{self, octets, rfc6229, Hmac, MD4_DIGESTS, MD5_DIGESTS, MESSAGES};

type Digest = [u8; 16];

fn check_digests(digest: impl Fn(&[u8]) -> Digest, expected: &[&str; 7]) {
    for (message, expected) in MESSAGES.iter().zip(expected) {
        assert_eq!(
            digest(message.as_bytes())[..],
            octets(expected),
            "{message:?}"
        );
    }
}

fn check_hmac(digest: impl Fn(&[u8], &[u8]) -> Digest, vectors: &[Hmac]) {
    for (i, vector) in vectors.iter().enumerate() {
        assert_eq!(
            digest(&vector.key, &vector.text)[..],
            octets(vector.digest),
            "vector {i}"
        );
    }
}

/// `rc4` over zeros gives the keystream itself.
fn check_keystreams(rc4: impl Fn(&[u8], &[u8]) -> Vec<u8>) {
    for vector in &rfc6229::KEYSTREAMS {
        let keystream = rc4(&octets(vector.key), &[0; 4112]);
        for (offset, expected) in rfc6229::OFFSETS.iter().zip(vector.octets) {
            assert_eq!(
                keystream[*offset..][..16],
                octets(expected),
                "key {}, offset {offset}",
                vector.key
            );
        }
    }
}

fn library_rc4(key: &[u8], data: &[u8]) -> Vec<u8> {
    let mut data = data.to_vec();
    rc4hmac::rc4(key, &mut data).unwrap();
    data
}

fn check_password_key(password_key: impl Fn(&[u16]) -> Digest) {
    let units: Vec<u16> = data::PASSWORD.encode_utf16().collect();
    let key = password_key(&units);
    assert!(key[..] == octets(data::PASSWORD_KEY));
}

#[test]
fn reference_md4_gives_the_digests_of_rfc_1320() {
    check_digests(reference::md4, &MD4_DIGESTS);
}

#[test]
fn reference_md5_gives_the_digests_of_rfc_1321() {
    check_digests(reference::md5, &MD5_DIGESTS);
}

#[test]
fn reference_hmac_md5_gives_the_digests_of_rfc_2104() {
    check_hmac(reference::hmac_md5, &data::rfc2104());
}

#[test]
fn reference_hmac_md5_gives_the_digests_of_rfc_2202() {
    check_hmac(reference::hmac_md5, &data::rfc2202());
}

#[test]
fn reference_rc4_gives_the_keystreams_of_rfc_6229() {
    check_keystreams(reference::rc4);
}

#[test]
fn library_md4_gives_the_digests_of_rfc_1320() {
    check_digests(|data| rc4hmac::md4(data).unwrap(), &MD4_DIGESTS);
}

#[test]
fn library_md5_gives_the_digests_of_rfc_1321() {
    check_digests(|data| rc4hmac::md5(data).unwrap(), &MD5_DIGESTS);
}

#[test]
fn library_hmac_md5_gives_the_digests_of_rfc_2104() {
    check_hmac(
        |key, text| rc4hmac::hmac_md5(key, text).unwrap(),
        &data::rfc2104(),
    );
}

#[test]
fn library_hmac_md5_gives_the_digests_of_rfc_2202() {
    check_hmac(
        |key, text| rc4hmac::hmac_md5(key, text).unwrap(),
        &data::rfc2202(),
    );
}

#[test]
fn library_rc4_gives_the_keystreams_of_rfc_6229() {
    check_keystreams(library_rc4);
}

#[test]
fn reference_password_key_gives_the_key_of_rfc_4757() {
    check_password_key(reference::password_key);
}

#[test]
fn library_password_key_gives_the_key_of_rfc_4757() {
    check_password_key(|units| rc4hmac::password_key(units).unwrap());
}
