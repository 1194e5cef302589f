//! Vectors as data. Published ones: RFC 1320 and RFC 1321 (A.5), RFC 2104
//! (appendix), RFC 2202 (section 2), RFC 6229 (section 2) and RFC 4757
//! (section 2). And others: computed for this, written by other
//! implementations, or attributed to a source that was not at hand.

pub mod computed;
pub mod implementations;
pub mod krb5;
pub mod rfc6229;
pub mod tokens;

/// The octets that a string of hexadecimal digits stands for.
pub fn octets(hexadecimal: &str) -> Vec<u8> {
    let digit = |c: u8| (c as char).to_digit(16).expect("a hexadecimal digit") as u8;
    assert_eq!(hexadecimal.len() % 2, 0);
    hexadecimal
        .as_bytes()
        .chunks_exact(2)
        .map(|pair| digit(pair[0]) << 4 | digit(pair[1]))
        .collect()
}

/// The same for a key or a checksum.
pub fn array<const LEN: usize>(hexadecimal: &str) -> [u8; LEN] {
    octets(hexadecimal).try_into().expect("a fixed length")
}

/// RFC 4757, section 2: a password and its key.
pub const PASSWORD: &str = "foo";
pub const PASSWORD_KEY: &str = "ac8e657f83df82beea5d43bdaf7800cc";

/// The messages of both A.5, in order.
pub const MESSAGES: [&str; 7] = [
    "",
    "a",
    "abc",
    "message digest",
    "abcdefghijklmnopqrstuvwxyz",
    "ABCDEFGHIJKLMNOPQRSTUVWXYZabcdefghijklmnopqrstuvwxyz0123456789",
    "12345678901234567890123456789012345678901234567890123456789012345678901234567890",
];

/// RFC 1320, A.5.
pub const MD4_DIGESTS: [&str; 7] = [
    "31d6cfe0d16ae931b73c59d7e0c089c0",
    "bde52cb31de33e46245e05fbdbd6fb24",
    "a448017aaf21d8525fc10ae87aa6729d",
    "d9130a8164549fe818874806e1c7014b",
    "d79e1c308aa5bbcdeea8ed63df412da9",
    "043f8582f241db351ce627e153e7f0e4",
    "e33b4ddc9c38f2199c3e7b164fcc0536",
];

/// RFC 1321, A.5.
pub const MD5_DIGESTS: [&str; 7] = [
    "d41d8cd98f00b204e9800998ecf8427e",
    "0cc175b9c0f1b6a831c399e269772661",
    "900150983cd24fb0d6963f7d28e17f72",
    "f96b697d7cb7938d525a2f31aaf161d0",
    "c3fcd3d76192e4007dfb496cca67e13b",
    "d174ab98d277d9f5a5611c2c9f419d9f",
    "57edf4a22be3c955ac49da2e2107b67a",
];

pub struct Hmac {
    pub key: Vec<u8>,
    pub text: Vec<u8>,
    pub digest: &'static str,
}

fn hmac(key: &[u8], text: &[u8], digest: &'static str) -> Hmac {
    Hmac {
        key: key.to_vec(),
        text: text.to_vec(),
        digest,
    }
}

/// RFC 2104, appendix.
pub fn rfc2104() -> [Hmac; 3] {
    [
        hmac(&[0x0b; 16], b"Hi There", "9294727a3638bb1c13f48ef8158bfc9d"),
        hmac(
            b"Jefe",
            b"what do ya want for nothing?",
            "750c783e6ab0b503eaa86e310a5db738",
        ),
        hmac(&[0xaa; 16], &[0xdd; 50], "56be34521d144c88dbb8c733f0e8b3f6"),
    ]
}

/// RFC 2202, section 2, the cases that RFC 2104 has not: among them keys
/// longer than a block.
pub fn rfc2202() -> [Hmac; 4] {
    let key: Vec<u8> = (1..=25).collect();
    [
        hmac(&key, &[0xcd; 50], "697eaf0aca3a3aea3a75164746ffaa79"),
        hmac(
            &[0x0c; 16],
            b"Test With Truncation",
            "56461ef2342edc00f9bab995690efd4c",
        ),
        hmac(
            &[0xaa; 80],
            b"Test Using Larger Than Block-Size Key - Hash Key First",
            "6b1ab7fe4bd7bf8f0b62e6ce61b9d0cd",
        ),
        hmac(
            &[0xaa; 80],
            b"Test Using Larger Than Block-Size Key and Larger Than One Block-Size Data",
            "6f630fad67cda0ee1fb1f562db3aa53e",
        ),
    ]
}
