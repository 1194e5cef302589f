//! Which refusal of a framed call is given where several apply, for every set of
//! faults: writing 1, then 2; reading 2, then 9, then the token's own, 1 first.
//! Each call leaves every octet and writes zeros.

use rc4hmac::Refusal;
use reference::{frame, frame_with, long_form, Outcome, Reading, TokenTerms, Wrap, PAD};
use support::calls::context;
use support::programs::FRAMED;
use support::{fault_sets, first, must_be_octets, AllTerms, Faults, Inputs, MustBe, RandomWrap};

/// Starts outside a buffer of 40,000 octets; with the lengths here some sums
/// come out small if they wrap.
const WRONG_STARTS: [usize; 5] = [40_000, 40_001, usize::MAX, usize::MAX - 36, usize::MAX - 63];

#[test]
fn the_writers_are_refused_for_length_then_region() {
    let mut inputs = Inputs::new(561);
    let (buf, data) = (inputs.octets(40_000), inputs.octets(32_769));
    for terms in TokenTerms::all(&mut inputs) {
        for wrong_start in WRONG_STARTS {
            for wrong_len in [32_769, 100_000, usize::MAX - 48, usize::MAX] {
                for faults @ [length, region] in fault_sets() {
                    let start = if region { wrong_start } else { 5 };
                    let len = if length { wrong_len } else { 84 };
                    let data = &data[..if length { 32_769 } else { 40 }];
                    let wraps = [false, true].map(|sealed| {
                        let wrap = Wrap::new(&mut inputs, sealed, 0);
                        (FRAMED.wrap_write(&terms, &wrap, &buf, start, len), 131)
                    });
                    let mic = (FRAMED.mic_write(&terms, 1, data, &buf, start), 37);
                    for (outcome, written) in wraps.into_iter().chain([mic]) {
                        match first([1, 2], faults) {
                            0 => assert_eq!((outcome.number, outcome.len), (0, written)),
                            number => outcome.must_be(&Outcome::refused(number, &buf), faults),
                        }
                    }
                }
            }
        }
    }
}

/// A frame around the token, or something that is none: another tag, another
/// mechanism, a length that ends before or after, or in a longer form.
fn framed(token: &[u8], fault: Option<usize>) -> Vec<u8> {
    let mut framed = frame(token);
    let longer = (framed[1].max(0x80) - 0x80) + 1;
    let mechanism = framed.len() - token.len() - 11;
    match fault {
        None => {}
        Some(0) => framed[0] = 0x61,
        Some(1) => framed[mechanism + 10] ^= 0x01,
        Some(2) => framed[mechanism - 1] ^= 0x01,
        Some(3) => framed[mechanism + 1] = 0x0a,
        _ => framed = frame_with(&long_form(token.len() + 11, longer), token),
    }
    framed
}

const FRAME_FAULTS: usize = 5;

/// Puts the octets 5 after the buffer's start and answers how many they are.
fn put(buf: &mut [u8], framed: &[u8]) -> usize {
    buf[5..][..framed.len()].copy_from_slice(framed);
    framed.len()
}

#[test]
fn wrap_open_is_refused_for_region_then_frame_then_the_token() {
    let mut inputs = Inputs::new(562);
    let mut buf = inputs.octets(40_000);
    for terms in TokenTerms::all(&mut inputs) {
        for (turn, wrong_start) in WRONG_STARTS.into_iter().enumerate() {
            let wrong_len = [0, 24, 32, 32_802, 32_900][turn];
            for set @ [region, no_frame, length, header, direction, checksum, pad] in fault_sets() {
                let sealed = inputs.number(0, 1) == 1;
                let wrap = Wrap::new(&mut inputs, sealed, 7);
                let faults = Faults::new([header, direction, checksum, pad]);
                let mut token = faults.wrap(&terms, &wrap);
                if length {
                    token.resize(wrong_len, PAD);
                }
                let fault = no_frame.then_some(turn % FRAME_FAULTS);
                let len = put(&mut buf, &framed(&token, fault));
                let start = if region { wrong_start } else { 5 };
                let reading = FRAMED.wrap_open(&terms, &buf, start, len);
                match first([2, 9, 1, 4, 5, 6, 7], set) {
                    0 => {
                        let answer = (0, wrap.sequence, sealed.into(), 7);
                        assert_eq!(reading.answer(), answer);
                    }
                    number => reading.must_be(&Reading::refused(number, &buf), set),
                }
            }
        }
    }
}

#[test]
fn mic_read_is_refused_for_region_then_frame_then_the_token() {
    let mut inputs = Inputs::new(563);
    let (data, mut buf) = (inputs.octets(32_769), inputs.octets(40_000));
    for terms in TokenTerms::all(&mut inputs) {
        for (turn, wrong_start) in WRONG_STARTS.into_iter().enumerate() {
            let wrong_len = [0, 23, 25, 33, 150][turn];
            for set @ [region, no_frame, length, long, header, direction, checksum] in fault_sets()
            {
                let data = &data[..if long { 32_769 } else { 30 }];
                let faults = Faults::new([header, direction, checksum, false]);
                let mut token = faults.mic(&terms, data);
                if length {
                    token.resize(wrong_len, 0);
                }
                let fault = no_frame.then_some(turn % FRAME_FAULTS);
                let len = put(&mut buf, &framed(&token, fault));
                let start = if region { wrong_start } else { 5 };
                let reading = FRAMED.mic_read(&terms, data, &buf, start, len);
                match first([2, 9, 1, 1, 4, 5, 6], set) {
                    0 => assert_eq!(reading.answer(), (0, 6, 0, 0)),
                    number => reading.must_be(&Reading::refused(number, &buf), set),
                }
            }
        }
    }
}

/// The token's own refusals, each alone, through every form of a length.
#[test]
fn the_refusals_of_the_token_keep_their_numbers() {
    let mut inputs = Inputs::new(564);
    let names = [
        (4, Refusal::Header),
        (5, Refusal::Direction),
        (6, Refusal::Checksum),
        (7, Refusal::Pad),
    ];
    for terms in TokenTerms::all(&mut inputs) {
        let context = context(&terms);
        for (sealed, len) in [
            (false, 0),
            (true, 83),
            (true, 84),
            (false, 212),
            (true, 32_768),
        ] {
            let wrap = Wrap::new(&mut inputs, sealed, len);
            for (number, refusal) in names {
                let faults = Faults::new([4, 5, 6, 7].map(|fault| fault == number));
                let framed = frame(&faults.wrap(&terms, &wrap));
                let (buf, start) = inputs.around(&framed);
                let opened = FRAMED.wrap_open(&terms, &buf, start, framed.len());
                opened.must_be(&Reading::refused(number, &buf), len);
                let mut lent = buf.clone();
                let answer = rc4hmac::framed_wrap_open(&context, &mut lent, start, framed.len());
                assert_eq!(answer, Err(refusal));
                must_be_octets(&lent, &buf, number);

                if number != 7 {
                    let framed = frame(&faults.mic(&terms, &wrap.message));
                    let read = FRAMED.mic_read(&terms, &wrap.message, &framed, 0, 37);
                    read.must_be(&Reading::refused(number, &framed), len);
                    let answer = rc4hmac::framed_mic_read(&context, &wrap.message, &framed, 0, 37);
                    assert_eq!(answer, Err(refusal));
                }
            }
        }
    }
}

/// Signed with it: nothing but the test of the pad finds it.
#[test]
fn every_other_last_octet_is_refused_with_7_and_the_frame_left() {
    let mut inputs = Inputs::new(565);
    for terms in TokenTerms::all(&mut inputs) {
        for (sealed, len) in [(false, 0), (true, 0), (false, 5), (true, 100)] {
            let wrap = Wrap::new(&mut inputs, sealed, len);
            for last in 0..=255 {
                let framed = frame(&terms.wrap_ending(&wrap, last));
                let opened = FRAMED.wrap_open(&terms, &framed, 0, framed.len());
                let number = if last == PAD { 0 } else { 7 };
                assert_eq!(opened.number, number, "{last}");
            }
        }
    }
}

/// Another key, strength or sender shows in the direction.
#[test]
fn other_terms_are_refused_with_5() {
    let mut inputs = Inputs::new(566);
    for terms in TokenTerms::all(&mut inputs) {
        let (export, acceptor, key) = (!terms.export, !terms.acceptor, inputs.array());
        for other in [
            TokenTerms { export, ..terms },
            TokenTerms { acceptor, ..terms },
            TokenTerms { key, ..terms },
        ] {
            for (sealed, len) in [(false, 0), (true, 20), (false, 84), (true, 300)] {
                let wrap = Wrap::new(&mut inputs, sealed, len);
                let framed = frame(&terms.wrap(&wrap));
                let opened = FRAMED.wrap_open(&other, &framed, 0, framed.len());
                opened.must_be(&Reading::refused(5, &framed), other.name());
                let framed = frame(&terms.mic(wrap.sequence, &wrap.message));
                let read = FRAMED.mic_read(&other, &wrap.message, &framed, 0, 37);
                read.must_be(&Reading::refused(5, &framed), other.name());
            }
        }
    }
}

/// A MIC in the Wrap opener's hands and the other way round, each faultless.
#[test]
fn a_frame_of_the_other_kind_is_refused_for_its_token() {
    let mut inputs = Inputs::new(567);
    for terms in TokenTerms::all(&mut inputs) {
        let mic = frame(&terms.mic(5, b"data"));
        let opened = FRAMED.wrap_open(&terms, &mic, 0, 37);
        opened.must_be(&Reading::refused(1, &mic), "24 octets");
        for sealed in [false, true] {
            let token = terms.wrap(&Wrap::new(&mut inputs, sealed, 0));
            let framed = frame(&token);
            let read = FRAMED.mic_read(&terms, b"data", &framed, 0, 46);
            read.must_be(&Reading::refused(1, &framed), "33 octets");
            let cut = frame(&token[..24]);
            let read = FRAMED.mic_read(&terms, b"data", &cut, 0, 37);
            read.must_be(&Reading::refused(4, &cut), "24 octets of a Wrap token");
        }
        let longer = frame(&[terms.mic(5, b"data"), inputs.octets(9)].concat());
        let opened = FRAMED.wrap_open(&terms, &longer, 0, 46);
        opened.must_be(&Reading::refused(4, &longer), "33 octets of a MIC");
    }
}
