//! Every limit of a checksum's and a message's length from both sides, and
//! what a refusal leaves.

use rc4hmac::{Refusal, Strength, Usage};
use reference::{outcomes, Outcome, Terms, HEADER};
use support::{calls, must_be_octets, Inputs, MustBe, OVER_MESSAGE};

fn terms(inputs: &mut Inputs, export: bool) -> Terms {
    Terms {
        key: inputs.array(),
        export,
        usage: 13,
    }
}

#[test]
fn checksums_take_32_768_octets_and_refuse_more() {
    let mut inputs = Inputs::new(121);
    let (key, data) = (inputs.array(), inputs.octets(1_000_000));
    let (usage, name) = (15, Usage::KRB_SAFE_CKSUM);
    for len in [32_767, 32_768] {
        let expected = reference::checksum(&key, usage, &data[..len]);
        assert_eq!(rc4hmac::checksum(&key, name, &data[..len]), Ok(expected));
        assert_eq!(calls::checksum(&key, usage, &data[..len]), (0, expected));
        assert_eq!(
            calls::checksum_test(&key, usage, &data[..len], &expected),
            0
        );
    }
    for len in OVER_MESSAGE.into_iter().filter(|&len| len <= data.len()) {
        let data = &data[..len];
        // The right one, were the length let in.
        let checksum = reference::checksum(&key, usage, data);
        let refused = Err(Refusal::Length);
        assert_eq!(rc4hmac::checksum(&key, name, data), refused, "{len}");
        assert_eq!(calls::checksum(&key, usage, data), (1, [0; 16]), "{len}");
        let answer = rc4hmac::checksum_test(&key, name, data, &checksum);
        assert_eq!(answer, Err(Refusal::Length), "{len}");
        let answer = calls::checksum_test(&key, usage, data, &checksum);
        assert_eq!(answer, 1, "{len}");
    }
}

/// The areas are zeros that nobody touches: address space, hardly memory.
#[test]
fn lengths_that_are_within_the_limits_only_in_their_low_32_bits_are_refused() {
    let key = [7; 16];
    for low in [0, 16, 32_768] {
        let huge = vec![0; (1 << 32) + low];
        assert_eq!(calls::checksum(&key, 15, &huge), (1, [0; 16]), "{low}");
        let checksum = reference::checksum(&key, 15, &huge[..low]);
        let answer = calls::checksum_test(&key, 15, &huge, &checksum);
        assert_eq!(answer, 1, "{low}");
        let answer = calls::checksum_test(&key, 15, b"", &huge);
        assert_eq!(answer, 1, "{low}");
    }
}

#[test]
fn encrypt_takes_32_768_octets() {
    let mut inputs = Inputs::new(122);
    for export in [false, true] {
        let terms = terms(&mut inputs, export);
        for len in [0, 1, 32_767, 32_768] {
            let (confounder, buf) = (inputs.array(), inputs.octets(HEADER + len));
            let outcome = calls::encrypt(&terms, &confounder, &buf, 0, len);
            assert_eq!((outcome.number, outcome.len), (0, HEADER + len));
            let message = terms.encrypt(&confounder, &buf[HEADER..]);
            must_be_octets(&outcome.buf, &message, len);
        }
    }
}

#[test]
fn encrypt_refuses_more_and_leaves_the_buffer() {
    let mut inputs = Inputs::new(123);
    for export in [false, true] {
        let terms = terms(&mut inputs, export);
        // With room for some of them, so that only the length is wrong.
        let buf = inputs.octets(100_000);
        for len in OVER_MESSAGE {
            let outcome = calls::encrypt(&terms, &inputs.array(), &buf, 0, len);
            outcome.must_be(&Outcome::refused(1, &buf), len);
        }
    }
}

#[test]
fn decrypt_takes_24_to_32_792_octets() {
    let mut inputs = Inputs::new(124);
    for export in [false, true] {
        let terms = terms(&mut inputs, export);
        for length in [24, 25, 32_768, 32_769, 32_791, 32_792] {
            let data = inputs.octets(length - HEADER);
            let message = terms.encrypt(&inputs.array(), &data);
            let outcome = calls::decrypt(&terms, &message, 0, length);
            assert_eq!((outcome.number, outcome.len), (0, length - HEADER));
            must_be_octets(&outcome.buf[HEADER..], &data, length);
        }
    }
}

/// The longer ones are written by the rules, so that only the length is wrong.
#[test]
fn decrypt_refuses_fewer_and_more_and_leaves_the_buffer() {
    let mut inputs = Inputs::new(125);
    for export in [false, true] {
        let terms = terms(&mut inputs, export);
        for len in [32_769, 32_770, 40_000, 65_512, 65_513, 100_000] {
            let message = terms.encrypt(&inputs.array(), &inputs.octets(len));
            let outcome = calls::decrypt(&terms, &message, 0, message.len());
            outcome.must_be(&Outcome::refused(1, &message), len);
        }
        let message = terms.encrypt(&inputs.array(), &inputs.octets(40));
        for length in (0..HEADER).chain(OVER_MESSAGE.map(|len| len + HEADER)) {
            let outcome = calls::decrypt(&terms, &message, 0, length);
            outcome.must_be(&Outcome::refused(1, &message), length);
        }
    }
}

#[test]
fn the_safe_functions_refuse_other_lengths_and_leave_the_buffer() {
    let (key, usage) = ([7; 16], Usage::KRB_PRIV_ENCRYPTED_PART);
    for strength in [Strength::Full, Strength::Export] {
        let mut buf = vec![0x5a; 40_000];
        for len in OVER_MESSAGE {
            let answer = rc4hmac::encrypt(&key, strength, usage, &[1; 8], &mut buf, 0, len);
            assert_eq!(answer, Err(Refusal::Length), "{len}");
        }
        for length in [0, 1, 16, 23, 32_793, 40_000, usize::MAX] {
            let answer = rc4hmac::decrypt(&key, strength, usage, &mut buf, 0, length);
            assert_eq!(answer, Err(Refusal::Length), "{length}");
        }
        must_be_octets(&buf, &[0x5a; 40_000], "the buffer");
    }
}

/// Lengths in between, at random, compared with the reference implementation.
#[test]
fn lengths_beside_the_limits_have_the_references_outcome() {
    let mut inputs = Inputs::new(126);
    let terms = terms(&mut inputs, true);
    let (confounder, buf) = (inputs.array(), inputs.octets(33_000));
    for len in 32_760..=32_800 {
        for start in [0, 100, 208, 232, 300] {
            let expected = outcomes::encrypt(&terms, &confounder, &buf, start, len);
            let outcome = calls::encrypt(&terms, &confounder, &buf, start, len);
            outcome.must_be(&expected, (len, start));
            let expected = outcomes::decrypt(&terms, &buf, start, len);
            let outcome = calls::decrypt(&terms, &buf, start, len);
            outcome.must_be(&expected, (len, start));
        }
    }
}
