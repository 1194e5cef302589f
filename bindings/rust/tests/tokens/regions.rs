//! Where a token stands in the lent buffer, without the frame and in it: at its
//! start, in the middle, at its end and past it, and starts and lengths near the
//! largest number.

use rc4hmac::Refusal;
use reference::{Outcome, Reading, TokenTerms, Wrap};
use support::calls::context;
use support::programs::{Form, FORMS, TOKENS};
use support::{AllTerms, Inputs, MustBe, RandomWrap};

/// Lengths of messages, on both sides of each longer form of a frame's length
/// too.
const LENS: [usize; 9] = [0, 1, 16, 83, 84, 211, 212, 300, 1000];

/// Writes a Wrap token there and opens it again, and a MIC token likewise.
/// Answers whether each was inside.
#[track_caller]
fn compare(
    form: &Form,
    terms: &TokenTerms,
    wrap: &Wrap,
    buf: &[u8],
    start: usize,
    len: usize,
) -> [bool; 2] {
    let written = form.wrap_write(terms, wrap, buf, start, len);
    let opened = form.wrap_open(terms, &written.buf, start, form.wrap_len(len));
    assert_eq!(written.number, opened.number, "{start}, {len}");

    let (sequence, data) = (wrap.sequence, &wrap.message);
    let mic = form.mic_write(terms, sequence, data, buf, start);
    let read = form.mic_read(terms, data, &mic.buf, start, form.mic_len());
    assert_eq!(mic.number, read.number, "{start}, {len}");
    [written.number == 0, mic.number == 0]
}

#[test]
fn every_region_of_short_buffers_is_taken_or_refused_as_the_reference_says() {
    let mut inputs = Inputs::new(291);
    for form in FORMS {
        for terms in TokenTerms::all(&mut inputs) {
            let (mut wraps, mut mics) = (0, 0);
            for buf_len in 0..=form.wrap_len(7) {
                let buf = inputs.octets(buf_len);
                let wrap = Wrap::new(&mut inputs, buf_len % 2 == 0, 3);
                for start in 0..=buf_len + 2 {
                    for len in 0..=9 {
                        let inside = compare(form, &terms, &wrap, &buf, start, len);
                        wraps += u32::from(inside[0]);
                        mics += u32::from(inside[1]);
                    }
                }
            }
            // Of a buffer with n octets more than the shortest Wrap token has,
            // (n + 1)(n + 2) / 2 regions; of one with n more than a MIC has,
            // n + 1 for each of the ten lengths.
            assert_eq!(wraps, (0..=7).map(|n| (n + 1) * (n + 2) / 2).sum());
            assert_eq!(mics, (0..=16).map(|n| 10 * (n + 1)).sum());
        }
    }
}

#[test]
fn a_region_at_the_end_is_taken_and_one_octet_further_refused() {
    let mut inputs = Inputs::new(292);
    for form in FORMS {
        for terms in TokenTerms::all(&mut inputs) {
            for len in LENS {
                let start = inputs.number(0, 200);
                let buf = inputs.octets(start + form.wrap_len(len));
                let wrap = Wrap::new(&mut inputs, len % 2 == 0, 10);
                assert!(compare(form, &terms, &wrap, &buf, start, len)[0]);
                assert!(!compare(form, &terms, &wrap, &buf, start + 1, len)[0]);
                assert!(!compare(form, &terms, &wrap, &buf, start, len + 1)[0]);

                let mic = &buf[..start + form.mic_len()];
                assert!(compare(form, &terms, &wrap, mic, start, len)[1]);
                assert!(!compare(form, &terms, &wrap, mic, start + 1, len)[1]);

                // Also by as many octets as are no part of the message.
                for less in 1..=form.mic_len() {
                    let shorter = &buf[..buf.len() - less];
                    assert!(!compare(form, &terms, &wrap, shorter, start, len)[0]);
                    let shorter = &mic[..mic.len() - less];
                    assert!(!compare(form, &terms, &wrap, shorter, start, len)[1]);
                }
            }
        }
    }
}

#[test]
fn the_longest_token_stands_anywhere_in_a_longer_buffer() {
    let mut inputs = Inputs::new(293);
    for form in FORMS {
        for terms in TokenTerms::all(&mut inputs) {
            let buf = inputs.octets(form.wrap_len(32_768) + 100);
            let wrap = Wrap::new(&mut inputs, terms.acceptor, 0);
            for start in [0, 1, 50, 99, 100] {
                assert!(compare(form, &terms, &wrap, &buf, start, 32_768)[0]);
            }
            for start in [101, 102, 115, 116, 200, 32_901, 32_916, 100_000] {
                assert!(!compare(form, &terms, &wrap, &buf, start, 32_768)[0]);
            }
        }
    }
}

/// All four calls over a buffer that has no such region.
#[track_caller]
fn check_refused(
    form: &Form,
    terms: &TokenTerms,
    wrap: &Wrap,
    buf: &[u8],
    start: usize,
    len: usize,
) {
    let (outcome, reading) = (Outcome::refused(2, buf), Reading::refused(2, buf));
    let (wrap_len, mic_len) = (form.wrap_len(len), form.mic_len());
    (form.wrap_write(terms, wrap, buf, start, len)).must_be(&outcome, (start, len));
    (form.wrap_open(terms, buf, start, wrap_len)).must_be(&reading, (start, len));
    (form.mic_write(terms, 1, b"data", buf, start)).must_be(&outcome, start);
    (form.mic_read(terms, b"data", buf, start, mic_len)).must_be(&reading, start);
}

/// Starts whose sum with the length comes out small if it wraps, the length with
/// the lead or without.
#[test]
fn a_start_near_the_largest_number_is_refused_with_2() {
    let mut inputs = Inputs::new(294);
    for form in FORMS {
        for terms in TokenTerms::all(&mut inputs) {
            let (wrap, buf) = (Wrap::new(&mut inputs, true, 0), inputs.octets(100));
            for len in [8_usize, 54, 55, 67, 68, 32_768].into_iter().chain(LENS) {
                for sum in 0..(len + 33).min(102) {
                    for length in [len + 33, form.wrap_len(len)] {
                        let start = sum.wrapping_sub(length);
                        check_refused(form, &terms, &wrap, &buf, start, len);
                    }
                }
            }
            for near in 0..200 {
                check_refused(form, &terms, &wrap, &buf, usize::MAX - near, 8);
            }
        }
    }
}

/// Starts at the places where narrower or signed numbers would wrap.
#[test]
fn a_start_far_past_the_buffer_is_refused_with_2() {
    let mut inputs = Inputs::new(295);
    for form in FORMS {
        let [terms, ..] = TokenTerms::all(&mut inputs);
        let (wrap, buf) = (Wrap::new(&mut inputs, false, 0), inputs.octets(100));
        for edge in [1 << 8, 1 << 16, 1 << 31, 1 << 32, 1 << 62, 1 << 63] {
            for near in 0..50_usize {
                for start in [edge + near, edge - near] {
                    check_refused(form, &terms, &wrap, &buf, start, 0);
                }
            }
        }
    }
}

/// Without the frame the length is looked at before the region.
#[test]
fn a_length_near_the_largest_number_is_refused_with_1() {
    let mut inputs = Inputs::new(296);
    let [.., terms] = TokenTerms::all(&mut inputs);
    let (wrap, buf) = (Wrap::new(&mut inputs, true, 0), inputs.octets(100));
    let (outcome, reading) = (Outcome::refused(1, &buf), Reading::refused(1, &buf));
    for near in 0..200 {
        for start in [0, 1, 50, 67, 76, 100, 101, usize::MAX - 50, usize::MAX] {
            let length = usize::MAX - near;
            TOKENS
                .wrap_write(&terms, &wrap, &buf, start, length)
                .must_be(&outcome, start);
            TOKENS
                .wrap_open(&terms, &buf, start, length)
                .must_be(&reading, start);
            TOKENS
                .mic_read(&terms, b"data", &buf, start, length)
                .must_be(&reading, start);
        }
    }
}

#[test]
fn a_too_long_message_in_a_region_that_does_not_fit_is_refused_with_1() {
    let mut inputs = Inputs::new(297);
    let data = inputs.octets(32_769);
    for terms in TokenTerms::all(&mut inputs) {
        let (wrap, buf) = (Wrap::new(&mut inputs, true, 0), inputs.octets(100));
        let (outcome, reading) = (Outcome::refused(1, &buf), Reading::refused(1, &buf));
        for start in [0, 68, 77, 100, 101, usize::MAX] {
            TOKENS
                .wrap_write(&terms, &wrap, &buf, start, 32_769)
                .must_be(&outcome, start);
            TOKENS
                .wrap_open(&terms, &buf, start, 32_802)
                .must_be(&reading, start);
            TOKENS
                .mic_write(&terms, 1, &data, &buf, start)
                .must_be(&outcome, start);
            TOKENS
                .mic_read(&terms, &data, &buf, start, 24)
                .must_be(&reading, start);
        }
        // Too short as well.
        TOKENS
            .wrap_open(&terms, &buf, 69, 32)
            .must_be(&reading, "32 octets");
        TOKENS
            .mic_read(&terms, b"data", &buf, 78, 23)
            .must_be(&reading, "23 octets");
    }
}

#[test]
fn no_token_lies_inside_an_empty_buffer() {
    let mut inputs = Inputs::new(298);
    for form in FORMS {
        for terms in TokenTerms::all(&mut inputs) {
            let wrap = Wrap::new(&mut inputs, true, 0);
            for start in [0, 1, 23, 24, 25, 33, 36, 37, 46, usize::MAX] {
                check_refused(form, &terms, &wrap, &[], start, 0);
            }
        }
    }
}

#[test]
fn the_safe_functions_refuse_a_region_past_the_end_and_leave_the_buffer() {
    for terms in TokenTerms::all(&mut Inputs::new(299)) {
        let (context, refused) = (context(&terms), Err(Refusal::Region));
        for start in [17, 40, usize::MAX - 3, usize::MAX] {
            let mut buf = [0x5a; 40];
            let answer = rc4hmac::wrap_write(&context, 1, &[1; 8], true, &mut buf, start, 0);
            assert_eq!(answer, refused, "{start}");
            let answer = rc4hmac::wrap_open(&context, &mut buf, start, 33);
            assert_eq!(answer, Err(Refusal::Region), "{start}");
            let answer = rc4hmac::mic_write(&context, 1, b"data", &mut buf, start);
            assert_eq!(answer, refused, "{start}");
            let answer = rc4hmac::mic_read(&context, b"data", &buf, start, 24);
            assert_eq!(answer, Err(Refusal::Region), "{start}");
            assert_eq!(buf, [0x5a; 40], "{start}");
        }
    }
}
