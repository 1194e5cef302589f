//! Sealed Wrap tokens opened and written by the library beside plain Rust, on
//! the same octets in one run. The Rust that the targets are for has MD5's 64
//! steps written out and RC4 as the plain loop; a second line for each measure
//! has RC4 that reads ahead.

mod baseline;
mod library;
mod measure;

use std::cell::RefCell;
use std::hint::black_box;

use measure::{best_times, contender, Report};
use rc4hmac::WRAP_OVERHEAD;

/// Rounds of one timing each, and calls in one timing of a short token.
const ROUNDS: usize = 3_000;
const SHORT_CALLS: u32 = 100;

const KEY: [u8; 16] = [0x5a; 16];
const SEQUENCE: u32 = 16_909_060;
const CONFOUNDER: [u8; 8] = *b"a nonce!";

type Open = fn(&[u8; 16], &mut [u8]) -> Option<(u32, usize)>;
type Write = fn(&[u8; 16], u32, &[u8; 8], &mut [u8]);

/// What is measured: how many octets the message has, how many calls one timing
/// takes, and the target.
struct Size {
    name: &'static str,
    len: usize,
    calls: u32,
    target: Option<f64>,
}

const SIZES: [Size; 2] = [
    Size {
        name: "a sealed token of a 32,768-octet message",
        len: 32_768,
        calls: 1,
        target: Some(1.0),
    },
    Size {
        name: "a sealed token of a 100-octet message",
        len: 100,
        calls: SHORT_CALLS,
        target: None,
    },
];

fn main() {
    let mut report = Report::default();
    for size in &SIZES {
        open(&mut report, size);
        write(&mut report, size);
    }
    report.close();
}

/// A token's room with its message in place.
fn room(len: usize) -> Vec<u8> {
    (0..len + WRAP_OVERHEAD)
        .map(|i| (i * i / 7 + 31 * i) as u8)
        .collect()
}

/// One line beside the plain loop of RC4, one beside the loop that reads ahead.
fn lines(report: &mut Report, size: &Size, done: &str, [library, rust, ahead]: [f64; 3]) {
    let measure = format!("{} {done}", size.name);
    report.line(&measure, [library, rust], size.target, "");
    let measure = format!("{measure}, RC4 reading ahead in Rust");
    report.line(&measure, [library, ahead], None, "");
}

/// That it opens `token` and leaves it as it is if it is damaged.
fn check_open(open: Open, token: &[u8]) -> Vec<u8> {
    let mut opened = token.to_vec();
    let len = token.len() - WRAP_OVERHEAD;
    assert_eq!(open(&KEY, &mut opened), Some((SEQUENCE, len)));
    let mut damaged = token.to_vec();
    damaged[40] ^= 1;
    let before = damaged.clone();
    assert_eq!(open(&KEY, &mut damaged), None);
    assert!(damaged == before);
    opened
}

fn open(report: &mut Report, size: &Size) {
    let mut token = room(size.len);
    library::wrap_write(&KEY, SEQUENCE, &CONFOUNDER, &mut token);
    let opened = check_open(library::wrap_open, &token);
    assert!(opened != token);
    assert!(opened == check_open(baseline::wrap_open, &token));
    assert!(opened == check_open(baseline::wrap_open_reading_ahead, &token));

    // Each opens a fresh copy; the time of the copy counts for all.
    let buf = RefCell::new(token.clone());
    let fresh = || {
        let mut buf = buf.borrow_mut();
        buf.copy_from_slice(&token);
        buf
    };
    let times = best_times(
        ROUNDS,
        size.calls,
        [
            &contender(|| library::wrap_open(black_box(&KEY), black_box(&mut fresh()))),
            &contender(|| baseline::wrap_open(black_box(&KEY), black_box(&mut fresh()))),
            &contender(|| {
                baseline::wrap_open_reading_ahead(black_box(&KEY), black_box(&mut fresh()))
            }),
        ],
    );
    lines(report, size, "opened", times);
}

fn check_write(write: Write, len: usize) -> Vec<u8> {
    let mut token = room(len);
    write(&KEY, SEQUENCE, &CONFOUNDER, &mut token);
    token
}

fn write(report: &mut Report, size: &Size) {
    let token = check_write(library::wrap_write, size.len);
    assert!(token != room(size.len));
    assert!(token == check_write(baseline::wrap_write, size.len));
    assert!(token == check_write(baseline::wrap_write_reading_ahead, size.len));

    // All write to one buffer: what it holds does not matter to the time.
    let buf = RefCell::new(token);
    let key = || black_box(&KEY);
    let confounder = || black_box(&CONFOUNDER);
    let times = best_times(
        ROUNDS,
        size.calls,
        [
            &contender(|| {
                library::wrap_write(key(), SEQUENCE, confounder(), &mut buf.borrow_mut())
            }),
            &contender(|| {
                baseline::wrap_write(key(), SEQUENCE, confounder(), &mut buf.borrow_mut())
            }),
            &contender(|| {
                let mut buf = buf.borrow_mut();
                baseline::wrap_write_reading_ahead(key(), SEQUENCE, confounder(), &mut buf)
            }),
        ],
    );
    lines(report, size, "written", times);
}
