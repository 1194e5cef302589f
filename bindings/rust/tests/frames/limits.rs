//! Every limit of a framed token's length, and of a message's and a MIC's data,
//! from both sides, and what a refusal leaves. A region has no limit of its own.

use rc4hmac::{limits, Refusal};
use reference::{frame, Outcome, Reading, TokenTerms, Wrap, WRAP_MESSAGE_TYPE};
use support::calls::context;
use support::programs::FRAMED;
use support::{must_be_octets, AllTerms, Inputs, MustBe, RandomWrap, OVER_MESSAGE};

#[test]
fn mics_take_data_of_32_768_octets_and_refuse_more() {
    let mut inputs = Inputs::new(551);
    let data = inputs.octets(100_000);
    for terms in TokenTerms::all(&mut inputs) {
        let buf = inputs.octets(37);
        for len in [32_767, 32_768] {
            let written = FRAMED.mic_write(&terms, 5, &data[..len], &buf, 0);
            assert_eq!((written.number, written.len), (0, 37));
            let read = FRAMED.mic_read(&terms, &data[..len], &written.buf, 0, 37);
            assert_eq!(read.answer(), (0, 5, 0, 0));
        }
        for len in OVER_MESSAGE.into_iter().filter(|&len| len <= data.len()) {
            let outcome = FRAMED.mic_write(&terms, 5, &data[..len], &buf, 0);
            outcome.must_be(&Outcome::refused(1, &buf), len);
            // The right one, were the length let in.
            let framed = frame(&terms.mic(5, &data[..len]));
            let reading = FRAMED.mic_read(&terms, &data[..len], &framed, 0, 37);
            reading.must_be(&Reading::refused(1, &framed), len);
        }
    }
}

/// The areas are zeros that nobody touches: address space, hardly memory.
#[test]
fn data_within_the_limit_only_in_the_low_32_bits_of_their_length_are_refused() {
    let [terms, ..] = TokenTerms::all(&mut Inputs::new(552));
    for low in [0, 16, 32_768] {
        let huge = vec![0; (1 << 32) + low];
        let framed = frame(&terms.mic(5, &huge[..low]));
        let outcome = FRAMED.calls.mic_write(&terms, 5, &huge, &framed, 0);
        outcome.must_be(&Outcome::refused(1, &framed), low);
        let reading = FRAMED.calls.mic_read(&terms, &huge, &framed, 0, 37);
        reading.must_be(&Reading::refused(1, &framed), low);
    }
}

/// In a faultless frame, so that only the token's length is wrong.
#[test]
fn framed_mics_have_24_octets_and_no_other_number() {
    let mut inputs = Inputs::new(553);
    for terms in TokenTerms::all(&mut inputs) {
        let data = inputs.octets(30);
        let token = [terms.mic(5, &data), inputs.octets(70_000)].concat();
        let long = [32_801, 32_802, 65_524, 65_525, 65_526, 70_000];
        for len in (0..=300).chain(long) {
            let framed = frame(&token[..len]);
            let reading = FRAMED.mic_read(&terms, &data, &framed, 0, framed.len());
            if len == 24 {
                assert_eq!(reading.answer(), (0, 5, 0, 0));
            } else {
                reading.must_be(&Reading::refused(1, &framed), len);
            }
        }
    }
}

#[test]
fn wrap_write_takes_32_768_octets_and_refuses_more() {
    let mut inputs = Inputs::new(554);
    for terms in TokenTerms::all(&mut inputs) {
        // With room for some of the longer ones, so that only the length is wrong.
        let buf = inputs.octets(100_000);
        for sealed in [false, true] {
            let wrap = Wrap::new(&mut inputs, sealed, 0);
            for len in [32_766, 32_767, 32_768] {
                let outcome = FRAMED.wrap_write(&terms, &wrap, &buf, 9, len);
                assert_eq!((outcome.number, outcome.len), (0, len + 48));
            }
            let near = (0..60).map(|near| usize::MAX - near);
            for len in OVER_MESSAGE.into_iter().chain(near) {
                let outcome = FRAMED.wrap_write(&terms, &wrap, &buf, 9, len);
                outcome.must_be(&Outcome::refused(1, &buf), len);
            }
        }
    }
}

/// Written by the rules, so that only the token's length is wrong.
#[test]
fn framed_wrap_tokens_have_33_to_32_801_octets() {
    let mut inputs = Inputs::new(555);
    for terms in TokenTerms::all(&mut inputs) {
        for sealed in [false, true] {
            for len in [0, 1, 32_766, 32_767, 32_768] {
                let wrap = Wrap::new(&mut inputs, sealed, len);
                let framed = frame(&terms.wrap(&wrap));
                let opened = FRAMED.wrap_open(&terms, &framed, 0, framed.len());
                let answer = (0, wrap.sequence, sealed.into(), len);
                assert_eq!(opened.answer(), answer);
            }
            for len in [32_769, 32_770, 40_000, 65_491, 65_492, 65_493, 100_000] {
                let framed = frame(&terms.wrap(&Wrap::new(&mut inputs, sealed, len)));
                let opened = FRAMED.wrap_open(&terms, &framed, 0, framed.len());
                opened.must_be(&Reading::refused(1, &framed), len);
            }
            let token = terms.wrap(&Wrap::new(&mut inputs, sealed, 0));
            for len in 0..=32 {
                let framed = frame(&token[..len]);
                let opened = FRAMED.wrap_open(&terms, &framed, 0, framed.len());
                opened.must_be(&Reading::refused(1, &framed), len);
            }
        }
    }
}

/// A token without its pad, signed as such, is one octet too short.
#[test]
fn a_framed_token_of_32_octets_is_refused_with_1() {
    let mut inputs = Inputs::new(556);
    for terms in TokenTerms::all(&mut inputs) {
        for sealed in [false, true] {
            let wrap = Wrap::new(&mut inputs, sealed, 0);
            let sgn_cksum = terms.sgn_cksum(WRAP_MESSAGE_TYPE, &wrap.header(), &wrap.confounder);
            let framed = frame(&terms.wrap_with(&wrap, 1, &sgn_cksum)[..32]);
            let opened = FRAMED.wrap_open(&terms, &framed, 0, 45);
            opened.must_be(&Reading::refused(1, &framed), terms.name());
        }
    }
}

/// No length of a region is refused with 1: inside the buffer it is the frame
/// that says how long the token is.
#[test]
fn regions_of_any_length_that_are_no_frame_are_refused_with_9() {
    let mut inputs = Inputs::new(557);
    for terms in TokenTerms::all(&mut inputs) {
        let token = terms.wrap(&Wrap::new(&mut inputs, true, 40));
        let buf = [frame(&token), inputs.octets(100_000)].concat();
        let refused = Reading::refused(9, &buf);
        let long = [32_801, 32_816, 32_817, 65_535, 65_536, 65_551, buf.len()];
        for length in (0..=100).chain(long).filter(|&length| length != 86) {
            let opened = FRAMED.wrap_open(&terms, &buf, 0, length);
            opened.must_be(&refused, length);
            let read = FRAMED.mic_read(&terms, b"data", &buf, 0, length);
            read.must_be(&refused, length);
        }
        assert_eq!(FRAMED.wrap_open(&terms, &buf, 0, 86).number, 0);
    }
}

#[test]
fn the_safe_functions_refuse_other_lengths_and_leave_the_buffer() {
    for terms in TokenTerms::all(&mut Inputs::new(558)) {
        let (context, refused) = (context(&terms), Err(Refusal::Length));
        let mut buf = vec![0x5a; 40_000];
        for len in OVER_MESSAGE {
            let answer = rc4hmac::framed_wrap_write(&context, 1, &[1; 8], true, &mut buf, 0, len);
            assert_eq!(answer, refused, "{len}");
        }
        let data = vec![0; limits::MESSAGE_MAX + 1];
        let answer = rc4hmac::framed_mic_write(&context, 1, &data, &mut buf, 0);
        assert_eq!(answer, refused);
        must_be_octets(&buf, &[0x5a; 40_000], "the buffer");

        for len in [0, 1, 23, 25, 32, limits::WRAP_MAX + 1] {
            let framed = frame(&vec![1; len]);
            let (mut buf, length) = (framed.clone(), framed.len());
            let answer = rc4hmac::framed_wrap_open(&context, &mut buf, 0, length);
            assert_eq!(answer, Err(Refusal::Length), "{len}");
            let answer = rc4hmac::framed_mic_read(&context, b"data", &buf, 0, length);
            assert_eq!(answer, Err(Refusal::Length), "{len}");
            must_be_octets(&buf, &framed, len);
        }
        let framed = frame(&terms.mic(5, &data));
        let answer = rc4hmac::framed_mic_read(&context, &data, &framed, 0, 37);
        assert_eq!(answer, Err(Refusal::Length));
    }
}
