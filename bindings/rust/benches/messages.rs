//! Encrypted messages decrypted by the library beside plain Rust, on the same
//! octets in one run.

mod baseline;
mod library;
mod measure;

use std::cell::RefCell;
use std::hint::black_box;

use measure::{best_times, contender, Report};
use rc4hmac::{encrypt, Strength, Usage, ENCRYPTED_OVERHEAD};

/// Rounds of one timing each, and calls in one timing of a short message.
const ROUNDS: usize = 3_000;
const SHORT_CALLS: u32 = 100;

fn main() {
    let mut report = Report::default();
    decrypt(
        &mut report,
        "a message of 32,768 octets decrypted",
        32_768,
        1,
    );
    decrypt(
        &mut report,
        "a message of 100 octets decrypted",
        100,
        SHORT_CALLS,
    );
    report.close();
}

fn message(key: &[u8; 16], usage: Usage, data_len: usize) -> Vec<u8> {
    let mut buf: Vec<u8> = (0..data_len + ENCRYPTED_OVERHEAD)
        .map(|i| (i * i / 7 + 31 * i) as u8)
        .collect();
    encrypt(
        key,
        Strength::Full,
        usage,
        b"a nonce!",
        &mut buf,
        0,
        data_len,
    )
    .unwrap();
    buf
}

fn decrypt(report: &mut Report, measure: &str, data_len: usize, calls: u32) {
    let (key, usage) = ([0x5a; 16], Usage::KRB_PRIV_ENCRYPTED_PART);
    let number = usage.number();
    let encrypted = message(&key, usage, data_len);

    let (mut by_library, mut by_rust) = (encrypted.clone(), encrypted.clone());
    assert!(library::decrypt(&key, number, &mut by_library));
    assert!(baseline::decrypt(&key, number as u8, &mut by_rust));
    assert!(by_library == by_rust && by_library != encrypted);

    // Each decrypts a fresh copy; the time of the copy counts for both.
    let buf = RefCell::new(encrypted.clone());
    let fresh = || {
        let mut buf = buf.borrow_mut();
        buf.copy_from_slice(&encrypted);
        buf
    };
    let times = best_times(
        ROUNDS,
        calls,
        [
            &contender(|| library::decrypt(black_box(&key), number, black_box(&mut fresh()))),
            &contender(|| {
                baseline::decrypt(black_box(&key), number as u8, black_box(&mut fresh()))
            }),
        ],
    );
    report.line(measure, times, None, "");
}
