//! Which refusal is given where several apply: the lowest number, for every
//! set of faults. Each call leaves every octet and writes zeros.

use reference::{Outcome, Terms, HEADER};
use support::{calls, fault_sets, first, must_be_octets, Inputs, MustBe};

const WRONG_USAGES: [u32; 4] = [0, 16, 256, u32::MAX];

#[test]
fn a_checksum_is_refused_for_its_length_before_its_usage() {
    let mut inputs = Inputs::new(131);
    let (key, data) = (inputs.array(), inputs.octets(32_769));
    for wrong_usage in WRONG_USAGES {
        for faults @ [length, usage] in fault_sets() {
            let data = &data[..if length { 32_769 } else { 32_768 }];
            let usage = if usage { wrong_usage } else { 4 };
            let (number, checksum) = calls::checksum(&key, usage, data);
            let expected = first([1, 3], faults);
            assert_eq!(number, expected, "{faults:?}, {usage}");
            if expected != 0 {
                assert_eq!(checksum, [0; 16], "{faults:?}, {usage}");
            }
        }
    }
}

#[test]
fn a_checksum_test_is_refused_for_lengths_then_usage_then_checksum() {
    let mut inputs = Inputs::new(132);
    let (key, data) = (inputs.array(), inputs.octets(32_769));
    for wrong_usage in WRONG_USAGES {
        for wrong_len in [0, 1, 15, 17, 32] {
            for faults @ [length, checksum_length, usage, damage] in fault_sets() {
                let data = &data[..if length { 32_769 } else { 30 }];
                let right = reference::checksum(&key, 4, data);
                let mut checksum = [right, right].concat();
                checksum[0] ^= u8::from(damage);
                checksum.truncate(if checksum_length { wrong_len } else { 16 });
                let usage = if usage { wrong_usage } else { 4 };
                let number = calls::checksum_test(&key, usage, data, &checksum);
                let expected = first([1, 1, 3, 6], faults);
                assert_eq!(number, expected, "{faults:?}, {usage}, {wrong_len}");
            }
        }
    }
}

/// Wrong arguments of a call over a buffer of 40,000 octets.
#[derive(Clone, Copy, Debug)]
struct Wrong {
    len: usize,
    start: usize,
    usage: u32,
}

/// Every wrong length with every wrong start and usage, among them sums of
/// start and length that come out small if they wrap.
fn wrongs(lens: &[usize]) -> Vec<Wrong> {
    let starts = [40_000, 40_001, usize::MAX, usize::MAX - 23, usize::MAX - 63];
    let mut wrongs = Vec::new();
    for &len in lens {
        for start in starts {
            wrongs.extend(WRONG_USAGES.map(|usage| Wrong { len, start, usage }));
        }
    }
    wrongs
}

#[test]
fn encrypt_is_refused_for_length_then_region_then_usage() {
    let mut inputs = Inputs::new(133);
    let (key, confounder, buf) = (inputs.array(), inputs.array(), inputs.octets(40_000));
    for wrong in wrongs(&[32_769, 100_000, usize::MAX - 24, usize::MAX]) {
        for faults @ [length, region, usage, export] in fault_sets() {
            let data_len = if length { wrong.len } else { 40 };
            let start = if region { wrong.start } else { 5 };
            let usage = if usage { wrong.usage } else { 4 };
            let terms = Terms { key, export, usage };
            let outcome = calls::encrypt(&terms, &confounder, &buf, start, data_len);
            let what = (faults, wrong);
            // The strength is no fault: the last number is none.
            match first([1, 2, 3, 0], faults) {
                0 => assert_eq!((outcome.number, outcome.len), (0, 64), "{what:?}"),
                number => outcome.must_be(&Outcome::refused(number, &buf), what),
            }
        }
    }
}

#[test]
fn decrypt_is_refused_for_length_then_region_then_usage_then_checksum() {
    let mut inputs = Inputs::new(134);
    let (key, data, mut buf) = (inputs.array(), inputs.octets(40), inputs.octets(40_000));
    for wrong in wrongs(&[0, 23, 32_793, usize::MAX - 5, usize::MAX]) {
        for faults @ [length, region, usage, damage, export] in fault_sets() {
            let writer = Terms {
                key,
                export,
                usage: 4,
            };
            buf[5..69].copy_from_slice(&writer.encrypt(&inputs.array(), &data));
            buf[40] ^= u8::from(damage);

            let length = if length { wrong.len } else { 64 };
            let start = if region { wrong.start } else { 5 };
            let usage = if usage { wrong.usage } else { 4 };
            let reader = Terms { usage, ..writer };
            let outcome = calls::decrypt(&reader, &buf, start, length);
            let what = (faults, wrong);
            match first([1, 2, 3, 6, 0], faults) {
                0 => {
                    assert_eq!((outcome.number, outcome.len), (0, 40), "{what:?}");
                    must_be_octets(&outcome.buf[5 + HEADER..69], &data, what);
                }
                number => outcome.must_be(&Outcome::refused(number, &buf), what),
            }
        }
    }
}

/// All three for usage 0 as well, which alone would get 3.
#[test]
fn a_too_long_or_too_short_message_that_does_not_fit_is_refused_with_1() {
    let terms = Terms {
        key: [7; 16],
        export: false,
        usage: 0,
    };
    let buf = [0x5a; 100];
    let outcome = calls::encrypt(&terms, &[1; 8], &buf, 90, 32_769);
    outcome.must_be(&Outcome::refused(1, &buf), "encrypt");
    let outcome = calls::decrypt(&terms, &buf, 90, 32_793);
    outcome.must_be(&Outcome::refused(1, &buf), "decrypt, too long");
    let outcome = calls::decrypt(&terms, &buf, 90, 23);
    outcome.must_be(&Outcome::refused(1, &buf), "decrypt, too short");
}
