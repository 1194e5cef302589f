//! Messages that the key, strength and usage at hand did not make: all are
//! refused with 6, and every octet stays.

use rc4hmac::{Refusal, Strength, Usage};
use reference::{message_type, Outcome, Terms, HEADER, USAGES};
use support::{calls, must_be_octets, AllTerms, Inputs, MustBe};

#[track_caller]
fn check_refused(terms: &Terms, message: &[u8], what: impl std::fmt::Debug) {
    let outcome = calls::decrypt(terms, message, 0, message.len());
    outcome.must_be(&Outcome::refused(6, message), what);
}

/// A message, and that it opens as it stands: the damage alone is refused.
fn message(inputs: &mut Inputs, terms: &Terms, len: usize) -> Vec<u8> {
    let (confounder, data) = (inputs.array(), inputs.octets(len));
    let message = terms.encrypt(&confounder, &data);
    let outcome = calls::decrypt(terms, &message, 0, message.len());
    assert_eq!((outcome.number, outcome.len), (0, len));
    must_be_octets(&outcome.buf[16..24], &confounder, terms.name());
    must_be_octets(&outcome.buf[HEADER..], &data, terms.name());
    message
}

#[test]
fn every_damaged_bit_and_octet_is_found() {
    let mut inputs = Inputs::new(71);
    for terms in Terms::all(&mut inputs) {
        for len in [0, 1, 20] {
            let message = message(&mut inputs, &terms, len);
            for at in 0..message.len() {
                for damage in [0x01, 0x02, 0x04, 0x08, 0x10, 0x20, 0x40, 0x80, 0xff, 0xa5] {
                    let mut damaged = message.clone();
                    damaged[at] ^= damage;
                    check_refused(&terms, &damaged, (terms.name(), len, at, damage));
                }
            }
        }
    }
}

/// Under the damaged checksum confounder and data come out right: nothing but
/// the comparison of the whole checksum finds it.
#[test]
fn every_bit_of_the_checksum_is_compared() {
    let mut inputs = Inputs::new(70);
    for terms in Terms::all(&mut inputs) {
        for len in [0, 20] {
            let (confounder, data) = (inputs.array(), inputs.octets(len));
            let checksum = terms.checksum(&confounder, &data);
            for bit in 0..128 {
                let mut damaged = checksum;
                damaged[bit / 8] ^= 1 << (bit % 8);
                let message = terms.seal(&damaged, &confounder, &data);
                check_refused(&terms, &message, (terms.name(), len, bit));
            }
            let message = terms.seal(&checksum, &confounder, &data);
            let outcome = calls::decrypt(&terms, &message, 0, message.len());
            assert_eq!((outcome.number, outcome.len), (0, len));
        }
    }
}

#[test]
fn a_damaged_octet_of_a_long_message_is_found() {
    let mut inputs = Inputs::new(72);
    for export in [false, true] {
        let terms = Terms {
            key: inputs.array(),
            export,
            usage: 14,
        };
        let message = message(&mut inputs, &terms, 32_768);
        for at in [
            0, 15, 16, 23, 24, 25, 87, 88, 16_384, 32_767, 32_790, 32_791,
        ] {
            let mut damaged = message.clone();
            damaged[at] ^= 0x01;
            check_refused(&terms, &damaged, (terms.name(), at));
        }
    }
}

#[test]
fn a_message_cut_short_or_made_longer_is_refused() {
    let mut inputs = Inputs::new(73);
    for terms in Terms::all(&mut inputs) {
        let message = message(&mut inputs, &terms, 40);
        for len in HEADER..message.len() {
            check_refused(&terms, &message[..len], (terms.name(), len));
        }
        for more in 1..=9 {
            let longer = [&message[..], &inputs.octets(more)].concat();
            check_refused(&terms, &longer, (terms.name(), more));
            check_refused(&terms, &[&message[..], &vec![0; more]].concat(), more);
        }
    }
}

/// The octets on either side belong to the buffer, not to the message.
#[test]
fn a_message_read_one_octet_too_early_or_too_late_is_refused() {
    let mut inputs = Inputs::new(74);
    for terms in Terms::all(&mut inputs) {
        let message = message(&mut inputs, &terms, 40);
        let buf = [&inputs.octets(1)[..], &message, &inputs.octets(1)].concat();
        for start in [0, 2] {
            let outcome = calls::decrypt(&terms, &buf, start, message.len());
            outcome.must_be(&Outcome::refused(6, &buf), (terms.name(), start));
        }
    }
}

#[test]
fn every_wrong_bit_of_the_key_is_found() {
    let mut inputs = Inputs::new(75);
    for terms in Terms::all(&mut inputs) {
        let message = message(&mut inputs, &terms, 20);
        for bit in 0..128 {
            let mut wrong = terms;
            wrong.key[bit / 8] ^= 1 << (bit % 8);
            check_refused(&wrong, &message, (terms.name(), bit));
        }
    }
}

#[test]
fn the_wrong_strength_is_found() {
    let mut inputs = Inputs::new(76);
    for terms in Terms::all(&mut inputs) {
        for len in [0, 1, 20, 300, 32_768] {
            let message = message(&mut inputs, &terms, len);
            let export = !terms.export;
            check_refused(&Terms { export, ..terms }, &message, (terms.name(), len));
        }
    }
}

#[test]
fn a_usage_opens_the_messages_of_its_own_message_type_and_no_other() {
    let mut inputs = Inputs::new(77);
    for terms in Terms::all(&mut inputs) {
        let message = message(&mut inputs, &terms, 20);
        for usage in USAGES {
            let reader = Terms { usage, ..terms };
            if message_type(usage) == message_type(terms.usage) {
                let outcome = calls::decrypt(&reader, &message, 0, message.len());
                assert_eq!((outcome.number, outcome.len), (0, 20));
            } else {
                check_refused(&reader, &message, (terms.name(), usage));
            }
        }
    }
}

/// The messages are the library's own here.
#[test]
fn usages_3_8_and_9_open_each_others_messages() {
    let mut inputs = Inputs::new(78);
    let (key, confounder, data) = (inputs.array(), inputs.array(), inputs.octets(30));
    let plain = [&[0; HEADER], &data[..]].concat();
    for export in [false, true] {
        for writer in [3, 8, 9] {
            let usage = writer;
            let terms = Terms { key, export, usage };
            let sealed = calls::encrypt(&terms, &confounder, &plain, 0, 30);
            assert_eq!((sealed.number, sealed.len), (0, 54));
            for usage in [3, 8, 9] {
                let opened = calls::decrypt(&Terms { usage, ..terms }, &sealed.buf, 0, 54);
                assert_eq!((opened.number, opened.len), (0, 30), "{writer}, {usage}");
                must_be_octets(&opened.buf[HEADER..], &data, (writer, usage));
            }
            for usage in [1, 2, 4, 5, 6, 7, 10, 11, 12, 13, 14, 15] {
                let reader = Terms { usage, ..terms };
                check_refused(&reader, &sealed.buf, (writer, usage));
            }
        }
    }
}

#[test]
fn octets_that_are_no_message_are_refused() {
    let mut inputs = Inputs::new(79);
    for terms in Terms::all(&mut inputs) {
        for len in [24, 25, 32, 64, 100, 1000] {
            check_refused(&terms, &vec![0x00; len], (terms.name(), len));
            check_refused(&terms, &vec![0xff; len], (terms.name(), len));
            check_refused(&terms, &inputs.octets(len), (terms.name(), len));
        }
    }
}

#[test]
fn the_safe_function_refuses_a_damaged_message_and_leaves_it() {
    let mut inputs = Inputs::new(80);
    let terms = Terms {
        key: inputs.array(),
        export: true,
        usage: 11,
    };
    let mut damaged = message(&mut inputs, &terms, 20);
    damaged[30] ^= 0x40;
    let before = damaged.clone();
    let usage = Usage::AP_REQ_AUTHENTICATOR;
    let answer = rc4hmac::decrypt(&terms.key, Strength::Export, usage, &mut damaged, 0, 44);
    assert_eq!(answer, Err(Refusal::Checksum));
    must_be_octets(&damaged, &before, "the message");
}
