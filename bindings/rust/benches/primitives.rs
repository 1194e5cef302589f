//! The primitives of the library beside plain Rust, on the same octets in one
//! run: RC4, MD5, HMAC-MD5 and MD4.

mod baseline;
mod library;
mod measure;

use std::cell::RefCell;
use std::hint::black_box;

use measure::{best_times, contender, Report};

/// The octets of a large message.
const LARGE: usize = 32_768;

/// Enough rounds to meet quiet moments on a busy machine.
const ROUNDS: usize = 3_000;

/// Calls in one timing of a short message.
const SHORT_CALLS: u32 = 100;

type Digest = fn(&[u8], &mut [u8; 16]);

fn main() {
    let mut report = Report::default();
    rc4(&mut report);
    md5(&mut report);
    hmac_md5(&mut report);
    md4(&mut report);
    report.close();
}

fn octets(len: usize) -> Vec<u8> {
    (0..len).map(|i| (i * i / 7 + 31 * i) as u8).collect()
}

fn rc4(report: &mut Report) {
    let (key, data) = (octets(16), octets(LARGE));

    let (mut by_library, mut by_rust, mut ahead) = (data.clone(), data.clone(), data.clone());
    library::rc4(&key, &mut by_library);
    baseline::rc4(&key, &mut by_rust);
    baseline::rc4_reading_ahead(&key, &mut ahead);
    assert!(by_library == by_rust && by_library == ahead && by_library != data);

    // Both work on one buffer: what it holds does not matter to the time.
    let data = RefCell::new(data);
    let [library, rust, ahead] = best_times(
        ROUNDS,
        1,
        [
            &contender(|| library::rc4(black_box(&key), black_box(&mut data.borrow_mut()))),
            &contender(|| baseline::rc4(black_box(&key), black_box(&mut data.borrow_mut()))),
            &contender(|| {
                baseline::rc4_reading_ahead(black_box(&key), black_box(&mut data.borrow_mut()))
            }),
        ],
    );
    report.line(
        "RC4 of 32,768 octets, 16-octet key",
        [library, rust],
        Some(1.0),
        &format!(
            " (Rust reading ahead {ahead:.1} ns, ratio {:.3})",
            library / ahead
        ),
    );
}

/// One call of `function` over `data`.
#[inline(always)]
fn digest(function: Digest, data: &[u8]) -> [u8; 16] {
    let mut digest = [0; 16];
    function(black_box(data), black_box(&mut digest));
    digest
}

fn md5(report: &mut Report) {
    let data = octets(LARGE);
    let library = || digest(library::md5, &data);
    let rust = || digest(baseline::md5, &data);
    let table_driven = || digest(baseline::md5_table_driven, &data);
    assert_eq!(library(), rust());
    assert_eq!(library(), table_driven());

    let [library, rust, table_driven] = best_times(
        ROUNDS,
        1,
        [
            &contender(library),
            &contender(rust),
            &contender(table_driven),
        ],
    );
    report.line(
        "MD5 of 32,768 octets",
        [library, rust],
        Some(1.1),
        &format!(" (table-driven Rust {table_driven:.1} ns)"),
    );
}

fn hmac_md5(report: &mut Report) {
    let (key, text) = (octets(16), octets(16));
    let library = || {
        let mut digest = [0; 16];
        library::hmac_md5(black_box(&key), black_box(&text), black_box(&mut digest));
        digest
    };
    let rust = || {
        let mut digest = [0; 16];
        baseline::hmac_md5(black_box(&key), black_box(&text), black_box(&mut digest));
        digest
    };
    assert_eq!(library(), rust());

    let times = best_times(ROUNDS, SHORT_CALLS, [&contender(library), &contender(rust)]);
    report.line("HMAC-MD5 of 16 octets, 16-octet key", times, Some(1.0), "");
}

fn md4(report: &mut Report) {
    let data = octets(LARGE);
    let library = || digest(library::md4, &data);
    let rust = || digest(baseline::md4, &data);
    assert_eq!(library(), rust());

    let times = best_times(ROUNDS, 1, [&contender(library), &contender(rust)]);
    report.line("MD4 of 32,768 octets", times, None, "");
}
