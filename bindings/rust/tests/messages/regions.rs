//! Where a message stands in the lent buffer: at its start, in the middle, at
//! its end and past it, and starts and lengths near the largest number.

use rc4hmac::{Refusal, Strength, Usage};
use reference::{outcomes, Outcome, Terms, HEADER};
use support::{calls, must_be_octets, AllTerms, Inputs, MustBe};

fn terms(inputs: &mut Inputs, export: bool) -> Terms {
    Terms {
        key: inputs.array(),
        export,
        usage: 12,
    }
}

/// Encrypts there, and where that is done decrypts the message again; all
/// octets of the buffer are compared. Answers whether the region was inside.
#[track_caller]
fn compare(terms: &Terms, confounder: &[u8; 8], buf: &[u8], start: usize, data_len: usize) -> bool {
    let what = (buf.len(), start, data_len);
    let sealed = outcomes::encrypt(terms, confounder, buf, start, data_len);
    calls::encrypt(terms, confounder, buf, start, data_len).must_be(&sealed, what);

    let length = HEADER + data_len;
    let opened = outcomes::decrypt(terms, &sealed.buf, start, length);
    calls::decrypt(terms, &sealed.buf, start, length).must_be(&opened, what);
    assert_eq!(sealed.number, opened.number, "{what:?}");
    sealed.number == 0
}

#[test]
fn every_region_of_short_buffers_is_taken_or_refused_as_the_reference_says() {
    let mut inputs = Inputs::new(81);
    for export in [false, true] {
        let terms = terms(&mut inputs, export);
        let mut inside = 0;
        for buf_len in 0..=36 {
            let (buf, confounder) = (inputs.octets(buf_len), inputs.array());
            for start in 0..=buf_len + 2 {
                for data_len in 0..=14 {
                    inside += u32::from(compare(&terms, &confounder, &buf, start, data_len));
                }
            }
        }
        // Of a buffer of 24 + n octets, (n + 1)(n + 2) / 2 regions.
        assert_eq!(inside, (0..=12).map(|n| (n + 1) * (n + 2) / 2).sum());
    }
}

#[test]
fn a_region_in_the_middle_leaves_the_octets_on_both_sides() {
    let mut inputs = Inputs::new(82);
    for terms in Terms::all(&mut inputs) {
        for data_len in [0, 1, 16, 100, 1000] {
            let (before, after) = (inputs.number(1, 200), inputs.number(1, 200));
            let buf = inputs.octets(before + HEADER + data_len + after);
            assert!(compare(&terms, &inputs.array(), &buf, before, data_len));
        }
    }
}

#[test]
fn a_region_at_the_end_is_taken_and_one_octet_further_refused() {
    let mut inputs = Inputs::new(83);
    for terms in Terms::all(&mut inputs) {
        for data_len in [0, 1, 16, 100, 1000] {
            let start = inputs.number(0, 200);
            let buf = inputs.octets(start + HEADER + data_len);
            let confounder = inputs.array();
            assert!(compare(&terms, &confounder, &buf, start, data_len));
            assert!(!compare(&terms, &confounder, &buf, start + 1, data_len));
            assert!(!compare(&terms, &confounder, &buf, start, data_len + 1));
            assert!(!compare(
                &terms,
                &confounder,
                &buf[..buf.len() - 1],
                start,
                data_len
            ));
        }
    }
}

#[test]
fn the_longest_message_stands_anywhere_in_a_longer_buffer() {
    let mut inputs = Inputs::new(84);
    for export in [false, true] {
        let terms = terms(&mut inputs, export);
        let buf = inputs.octets(32_792 + 100);
        let confounder = inputs.array();
        for start in [0, 1, 50, 99, 100] {
            assert!(compare(&terms, &confounder, &buf, start, 32_768));
        }
        for start in [101, 102, 200, 32_892, 100_000] {
            assert!(!compare(&terms, &confounder, &buf, start, 32_768));
        }
    }
}

#[test]
fn several_messages_stand_side_by_side_in_one_buffer() {
    let mut inputs = Inputs::new(85);
    let (key, usage) = (inputs.array(), Usage::KRB_CRED_ENCRYPTED_PART);
    let data = inputs.octets(30);
    let plain = [&[0; HEADER], &data[..]].concat();
    let mut buf = plain.repeat(5);
    let confounders: [[u8; 8]; 5] = std::array::from_fn(|_| inputs.array());
    for (i, confounder) in confounders.iter().enumerate() {
        let answer = rc4hmac::encrypt(
            &key,
            Strength::Full,
            usage,
            confounder,
            &mut buf,
            54 * i,
            30,
        );
        assert_eq!(answer, Ok(54));
    }
    let terms = Terms {
        key,
        export: false,
        usage: 14,
    };
    let messages = confounders.map(|confounder| terms.encrypt(&confounder, &data));
    must_be_octets(&buf, &messages.concat(), "all written");

    for i in [3, 0, 4, 2, 1] {
        let answer = rc4hmac::decrypt(&key, Strength::Full, usage, &mut buf, 54 * i, 54);
        assert_eq!(answer, Ok(30));
    }
    for (opened, confounder) in buf.chunks_exact(54).zip(&confounders) {
        must_be_octets(&opened[16..24], confounder, "the confounder");
        must_be_octets(&opened[24..], &data, "the data");
    }
}

/// Starts whose sum with the length comes out small if it wraps.
#[test]
fn a_start_near_the_largest_number_is_refused_with_2() {
    let mut inputs = Inputs::new(86);
    for export in [false, true] {
        let terms = terms(&mut inputs, export);
        let (confounder, buf) = (inputs.array(), inputs.octets(100));
        let refused = Outcome::refused(2, &buf);
        for data_len in [0, 1, 8, 76, 77, 1000, 32_768] {
            let length = HEADER + data_len;
            for sum in 0..length.min(102) {
                let start = sum.wrapping_sub(length);
                let what = (start, data_len);
                calls::encrypt(&terms, &confounder, &buf, start, data_len).must_be(&refused, what);
                calls::decrypt(&terms, &buf, start, length).must_be(&refused, what);
            }
        }
    }
}

/// Starts at the places where narrower or signed numbers would wrap.
#[test]
fn a_start_far_past_the_buffer_is_refused_with_2() {
    let mut inputs = Inputs::new(87);
    let terms = terms(&mut inputs, false);
    let (confounder, buf) = (inputs.array(), inputs.octets(100));
    let refused = Outcome::refused(2, &buf);
    for edge in [1 << 8, 1 << 16, 1 << 31, 1 << 32, 1 << 62, 1 << 63] {
        for near in 0..50_usize {
            for start in [edge + near, edge - near].into_iter().filter(|&at| at > 76) {
                calls::encrypt(&terms, &confounder, &buf, start, 0).must_be(&refused, start);
                calls::decrypt(&terms, &buf, start, 24).must_be(&refused, start);
            }
        }
    }
    for near in 0..200 {
        let start = usize::MAX - near;
        calls::encrypt(&terms, &confounder, &buf, start, 8).must_be(&refused, start);
        calls::decrypt(&terms, &buf, start, 32).must_be(&refused, start);
    }
}

/// The length is looked at before the region.
#[test]
fn a_length_near_the_largest_number_is_refused_with_1() {
    let mut inputs = Inputs::new(88);
    let terms = terms(&mut inputs, true);
    let (confounder, buf) = (inputs.array(), inputs.octets(100));
    let refused = Outcome::refused(1, &buf);
    for near in 0..200 {
        for start in [0, 1, 50, 76, 100, 101, usize::MAX - 50, usize::MAX] {
            let length = usize::MAX - near;
            let what = (start, length);
            calls::encrypt(&terms, &confounder, &buf, start, length).must_be(&refused, what);
            calls::decrypt(&terms, &buf, start, length).must_be(&refused, what);
        }
    }
}

#[test]
fn no_region_lies_inside_an_empty_buffer() {
    let mut inputs = Inputs::new(89);
    let terms = terms(&mut inputs, false);
    let refused = Outcome::refused(2, &[]);
    for start in [0, 1, 23, 24, 25, usize::MAX] {
        calls::encrypt(&terms, &inputs.array(), &[], start, 0).must_be(&refused, start);
        calls::decrypt(&terms, &[], start, 24).must_be(&refused, start);
    }
}

#[test]
fn the_safe_functions_refuse_a_region_past_the_end_and_leave_the_buffer() {
    let (key, usage) = ([7; 16], Usage::KRB_PRIV_ENCRYPTED_PART);
    for strength in [Strength::Full, Strength::Export] {
        for start in [17, 40, usize::MAX - 3, usize::MAX] {
            let mut buf = [0x5a; 40];
            let answer = rc4hmac::encrypt(&key, strength, usage, &[1; 8], &mut buf, start, 0);
            assert_eq!(answer, Err(Refusal::Region), "{start}");
            let answer = rc4hmac::decrypt(&key, strength, usage, &mut buf, start, 24);
            assert_eq!(answer, Err(Refusal::Region), "{start}");
            assert_eq!(buf, [0x5a; 40], "{start}");
        }
    }
}
