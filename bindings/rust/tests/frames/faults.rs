//! Frames with damaged octets, cut off, made longer, with another mechanism or
//! none: for each the refusal that the rules give, and every octet stays.

use rc4hmac::Refusal;
use reference::{der_length, frame, lead, Reading, TokenTerms, Wrap, MECHANISM};
use support::calls::{self, context};
use support::programs::FRAMED;
use support::{must_be_octets, AllTerms, Inputs, MustBe, RandomWrap};

/// Bits, and several at once.
const DAMAGES: [u8; 6] = [0x01, 0x08, 0x40, 0x80, 0xa5, 0xff];

/// Sealed or not, and the length of the message; the last ones have longer
/// lengths in their frames.
const WRAPS: [(bool, usize); 7] = [
    (true, 0),
    (false, 0),
    (true, 5),
    (false, 5),
    (true, 84),
    (false, 212),
    (true, 300),
];

/// Both readers refuse it with this number.
#[track_caller]
fn check_refused(terms: &TokenTerms, region: &[u8], number: u32) {
    let refused = Reading::refused(number, region);
    let read = FRAMED.mic_read(terms, b"data", region, 0, region.len());
    read.must_be(&refused, terms.name());
    let opened = FRAMED.wrap_open(terms, region, 0, region.len());
    opened.must_be(&refused, terms.name());
}

/// A MIC of "data" and the Wrap tokens, without their frames.
fn tokens(inputs: &mut Inputs, terms: &TokenTerms) -> Vec<Vec<u8>> {
    let wraps = WRAPS.map(|(sealed, len)| terms.wrap(&Wrap::new(inputs, sealed, len)));
    let mic = terms.mic(inputs.sequence(), b"data");
    wraps.into_iter().chain([mic]).collect()
}

#[test]
fn every_other_value_of_every_octet_of_a_lead_is_refused_with_9() {
    let mut inputs = Inputs::new(531);
    for terms in TokenTerms::all(&mut inputs) {
        for token in tokens(&mut inputs, &terms) {
            for at in 0..lead(token.len()).len() {
                for change in 1..=255 {
                    let mut damaged = frame(&token);
                    damaged[at] ^= change;
                    check_refused(&terms, &damaged, 9);
                }
            }
        }
    }
}

/// Also where a clear token or a MIC is read with another number.
#[test]
fn a_damaged_token_in_its_frame_is_answered_as_it_is_without() {
    let mut inputs = Inputs::new(532);
    let mut met = [0; 7];
    for terms in TokenTerms::all(&mut inputs) {
        for token in tokens(&mut inputs, &terms) {
            for at in 0..token.len() {
                for damage in DAMAGES {
                    let mut damaged = token.clone();
                    damaged[at] ^= damage;
                    let framed = frame(&damaged);
                    let (length, what) = (framed.len(), (at, damage));

                    let read = FRAMED.mic_read(&terms, b"data", &framed, 0, length);
                    let inner = calls::mic_read(&terms, b"data", &damaged, 0, damaged.len());
                    assert_eq!(read.answer(), inner.answer(), "{what:?}");
                    must_be_octets(&read.buf, &framed, what);
                    met[read.number as usize] += 1;

                    let opened = FRAMED.wrap_open(&terms, &framed, 0, length);
                    let inner = calls::wrap_open(&terms, &damaged, 0, damaged.len());
                    assert_eq!(opened.answer(), inner.answer(), "{what:?}");
                    must_be_octets(&opened.buf, &frame(&inner.buf), what);
                    if opened.number != 0 {
                        must_be_octets(&opened.buf, &framed, what);
                    }
                    met[opened.number as usize] += 1;
                }
            }
        }
    }
    assert!(
        [0, 1, 4, 5, 6].iter().all(|&number| met[number] > 50),
        "{met:?}"
    );
}

/// No part of a frame is one, nor is a frame with more behind it.
#[test]
fn frames_cut_off_and_longer_ones_are_refused_with_9() {
    let mut inputs = Inputs::new(533);
    for terms in TokenTerms::all(&mut inputs) {
        for token in tokens(&mut inputs, &terms) {
            let framed = frame(&token);
            for len in (0..=60).chain([framed.len() - 1]) {
                if len < framed.len() {
                    check_refused(&terms, &framed[..len], 9);
                    // In the buffer the rest follows.
                    let refused = Reading::refused(9, &framed);
                    let opened = FRAMED.wrap_open(&terms, &framed, 0, len);
                    opened.must_be(&refused, len);
                    let read = FRAMED.mic_read(&terms, b"data", &framed, 0, len);
                    read.must_be(&refused, len);
                }
            }
            for more in 1..=20 {
                for behind in [vec![0; more], inputs.octets(more)] {
                    check_refused(&terms, &[&framed[..], &behind].concat(), 9);
                }
            }
            check_refused(&terms, &[&framed[..], &framed].concat(), 9);
        }
    }
}

#[test]
fn a_frame_read_one_octet_too_early_or_too_late_is_refused_with_9() {
    let mut inputs = Inputs::new(534);
    for terms in TokenTerms::all(&mut inputs) {
        for token in tokens(&mut inputs, &terms) {
            let framed = frame(&token);
            let buf = [&[0x60; 2], &framed[..], &[0x01; 2]].concat();
            for (start, number) in [(0, 9), (1, 9), (2, 0), (3, 9), (4, 9)] {
                let (read, opened) = (
                    FRAMED.mic_read(&terms, b"data", &buf, start, framed.len()),
                    FRAMED.wrap_open(&terms, &buf, start, framed.len()),
                );
                assert_eq!(read.number.min(opened.number), number, "{start}");
            }
        }
    }
}

#[test]
fn octets_at_random_are_refused_with_9_whatever_their_number() {
    let mut inputs = Inputs::new(535);
    for terms in TokenTerms::all(&mut inputs) {
        for len in 0..=60 {
            for _ in 0..20 {
                let mut region = inputs.octets(len);
                check_refused(&terms, &region, 9);
                // Behind the lead of a MIC, which ends where 37 octets end.
                for (place, octet) in region.iter_mut().zip(lead(24)) {
                    *place = octet;
                }
                if len != 37 {
                    check_refused(&terms, &region, 9);
                }
            }
        }
    }
}

/// A faultless frame with nothing in it: the token is too short.
#[test]
fn a_frame_with_the_mechanism_alone_is_refused_with_1() {
    for terms in TokenTerms::all(&mut Inputs::new(536)) {
        let framed = [&[0x60, 0x0b], &MECHANISM[..]].concat();
        check_refused(&terms, &framed, 1);
        for len in 0..=12 {
            check_refused(&terms, &framed[..len], 9);
        }
        // The length says less than the mechanism needs.
        for length in 0..=10 {
            let cut = [&[0x60, length], &MECHANISM[..length.into()]].concat();
            check_refused(&terms, &cut, 9);
            check_refused(&terms, &[&[0x60, length], &MECHANISM[..]].concat(), 9);
        }
    }
}

/// SPNEGO's, NTLM's, the mistyped one of early Kerberos tokens, Kerberos' user to
/// user, and the right one with its length or its tag changed.
#[test]
fn other_mechanisms_are_refused_with_9() {
    let others: [&[u8]; 7] = [
        &[0x06, 0x06, 0x2b, 0x06, 0x01, 0x05, 0x05, 0x02],
        &[6, 0x0a, 0x2b, 6, 1, 4, 1, 0x82, 0x37, 2, 2, 0x0a],
        &[6, 9, 0x2a, 0x86, 0x48, 0x82, 0xf7, 0x12, 1, 2, 2],
        &[6, 0x0a, 0x2a, 0x86, 0x48, 0x86, 0xf7, 0x12, 1, 2, 2, 3],
        &[6, 8, 0x2a, 0x86, 0x48, 0x86, 0xf7, 0x12, 1, 2],
        &[6, 0x81, 9, 0x2a, 0x86, 0x48, 0x86, 0xf7, 0x12, 1, 2, 2],
        &[],
    ];
    let mut inputs = Inputs::new(537);
    for terms in TokenTerms::all(&mut inputs) {
        for token in tokens(&mut inputs, &terms) {
            for other in others {
                let length = der_length(other.len() + token.len());
                let framed = [&[0x60], &length[..], other, &token].concat();
                check_refused(&terms, &framed, 9);
            }
        }
    }
}

/// A frame within a frame has no header of a token.
#[test]
fn a_frame_within_a_frame_is_refused_for_its_token() {
    let mut inputs = Inputs::new(538);
    for terms in TokenTerms::all(&mut inputs) {
        for token in tokens(&mut inputs, &terms) {
            let framed = frame(&frame(&token));
            let refused = |number| Reading::refused(number, &framed);
            let opened = FRAMED.wrap_open(&terms, &framed, 0, framed.len());
            opened.must_be(&refused(4), token.len());
            let read = FRAMED.mic_read(&terms, b"data", &framed, 0, framed.len());
            read.must_be(&refused(1), token.len());
        }
    }
}

#[test]
fn the_safe_functions_refuse_what_is_no_frame_and_leave_it() {
    let mut inputs = Inputs::new(539);
    for terms in TokenTerms::all(&mut inputs) {
        let context = context(&terms);
        for token in tokens(&mut inputs, &terms) {
            for at in 0..13 {
                let mut damaged = frame(&token);
                damaged[at] ^= 0x40;
                let (mut buf, length) = (damaged.clone(), damaged.len());
                let answer = rc4hmac::framed_wrap_open(&context, &mut buf, 0, length);
                assert_eq!(answer, Err(Refusal::Frame), "{at}");
                let answer = rc4hmac::framed_mic_read(&context, b"data", &buf, 0, length);
                assert_eq!(answer, Err(Refusal::Frame), "{at}");
                must_be_octets(&buf, &damaged, at);
            }
        }
    }
}
