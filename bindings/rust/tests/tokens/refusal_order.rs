//! Which refusal of a token call is given where several apply: the lowest
//! number, for every set of faults. Each call leaves every octet and writes
//! zeros.

use reference::{Outcome, Reading, TokenTerms, Wrap, PAD};
use support::{calls, fault_sets, first, AllTerms, Faults, Inputs, MustBe, RandomWrap};

/// Starts outside a buffer of 40,000 octets; with the lengths here some sums
/// come out small if they wrap.
const WRONG_STARTS: [usize; 5] = [40_000, 40_001, usize::MAX, usize::MAX - 23, usize::MAX - 63];

#[test]
fn the_writers_are_refused_for_length_then_region() {
    let mut inputs = Inputs::new(301);
    let (buf, data) = (inputs.octets(40_000), inputs.octets(32_769));
    for terms in TokenTerms::all(&mut inputs) {
        for wrong_start in WRONG_STARTS {
            for wrong_len in [32_769, 100_000, usize::MAX - 33, usize::MAX] {
                for faults @ [length, region, sealed] in fault_sets() {
                    let start = if region { wrong_start } else { 5 };
                    let wrap = Wrap::new(&mut inputs, sealed, 0);
                    let len = if length { wrong_len } else { 40 };
                    let data = &data[..if length { 32_769 } else { 40 }];
                    let what = (faults, wrong_start, wrong_len);
                    // Sealed is no fault: the last number is none.
                    let number = first([1, 2, 0], faults);
                    for (outcome, written) in [
                        (calls::wrap_write(&terms, &wrap, &buf, start, len), 73),
                        (calls::mic_write(&terms, 1, data, &buf, start), 24),
                    ] {
                        if number == 0 {
                            assert_eq!((outcome.number, outcome.len), (0, written));
                        } else {
                            outcome.must_be(&Outcome::refused(number, &buf), what);
                        }
                    }
                }
            }
        }
    }
}

#[test]
fn wrap_open_is_refused_in_the_order_of_the_numbers() {
    let mut inputs = Inputs::new(302);
    let mut buf = inputs.octets(40_000);
    for terms in TokenTerms::all(&mut inputs) {
        for (wrong_start, wrong_len) in
            WRONG_STARTS
                .into_iter()
                .zip([0, 32, 32_802, usize::MAX, 24])
        {
            for sealed in [false, true] {
                for set @ [length, region, header, direction, checksum, pad] in fault_sets() {
                    let wrap = Wrap::new(&mut inputs, sealed, 7);
                    let faults = Faults::new([header, direction, checksum, pad]);
                    buf[5..45].copy_from_slice(&faults.wrap(&terms, &wrap));
                    let start = if region { wrong_start } else { 5 };
                    let len = if length { wrong_len } else { 40 };
                    let reading = calls::wrap_open(&terms, &buf, start, len);
                    match first([1, 2, 4, 5, 6, 7], set) {
                        0 => {
                            let answer = (0, wrap.sequence, sealed.into(), 7);
                            assert_eq!(reading.answer(), answer);
                        }
                        number => reading.must_be(&Reading::refused(number, &buf), set),
                    }
                }
            }
        }
    }
}

#[test]
fn mic_read_is_refused_in_the_order_of_the_numbers() {
    let mut inputs = Inputs::new(303);
    let (data, mut buf) = (inputs.octets(32_769), inputs.octets(40_000));
    for terms in TokenTerms::all(&mut inputs) {
        for (wrong_start, wrong_len) in WRONG_STARTS.into_iter().zip([0, 23, 25, 33, usize::MAX]) {
            for set @ [length, long, region, header, direction, checksum] in fault_sets() {
                let data = &data[..if long { 32_769 } else { 30 }];
                let faults = Faults::new([header, direction, checksum, false]);
                buf[5..29].copy_from_slice(&faults.mic(&terms, data));
                let start = if region { wrong_start } else { 5 };
                let len = if length { wrong_len } else { 24 };
                let reading = calls::mic_read(&terms, data, &buf, start, len);
                match first([1, 1, 2, 4, 5, 6], set) {
                    0 => assert_eq!(reading.answer(), (0, 6, 0, 0)),
                    number => reading.must_be(&Reading::refused(number, &buf), set),
                }
            }
        }
    }
}

/// A wrong key spoils the direction and the checksum at once, a wrong header
/// octet the header and the checksum: the lower number is given.
#[test]
fn a_single_cause_of_several_refusals_gets_the_lowest() {
    let mut inputs = Inputs::new(304);
    for terms in TokenTerms::all(&mut inputs) {
        for sealed in [false, true] {
            let wrap = Wrap::new(&mut inputs, sealed, 20);
            let other = TokenTerms {
                key: inputs.array(),
                ..terms
            };
            for last in [PAD, 0x00] {
                let mut token = terms.wrap_ending(&wrap, last);
                let opened = calls::wrap_open(&other, &token, 0, 53);
                opened.must_be(&Reading::refused(5, &token), "another key");
                token[0] = 0x01;
                for reader in [terms, other] {
                    let opened = calls::wrap_open(&reader, &token, 0, 53);
                    opened.must_be(&Reading::refused(4, &token), "another header");
                }
            }
        }
    }
}
