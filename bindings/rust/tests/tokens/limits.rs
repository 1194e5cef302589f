//! Every limit of a token's, a message's and a MIC's data length from both
//! sides, and what a refusal leaves.

use rc4hmac::Refusal;
use reference::{
    token_outcomes, Outcome, Reading, TokenTerms, Wrap, FRONT, MIC, WRAP_MESSAGE_TYPE,
};
use support::calls::{self, context};
use support::{must_be_octets, AllTerms, Inputs, MustBe, RandomWrap, OVER_MESSAGE};

#[test]
fn mics_take_data_of_32_768_octets_and_refuse_more() {
    let mut inputs = Inputs::new(281);
    let data = inputs.octets(1_000_000);
    for terms in TokenTerms::all(&mut inputs) {
        let buf = inputs.octets(MIC);
        for len in [32_767, 32_768] {
            let written = calls::mic_write(&terms, 5, &data[..len], &buf, 0);
            assert_eq!((written.number, written.len), (0, 24));
            let read = calls::mic_read(&terms, &data[..len], &written.buf, 0, 24);
            assert_eq!(read.answer(), (0, 5, 0, 0));
        }
        for len in OVER_MESSAGE.into_iter().filter(|&len| len <= data.len()) {
            let outcome = calls::mic_write(&terms, 5, &data[..len], &buf, 0);
            outcome.must_be(&Outcome::refused(1, &buf), len);
            // The right one, were the length let in.
            let token = terms.mic(5, &data[..len]);
            let reading = calls::mic_read(&terms, &data[..len], &token, 0, 24);
            reading.must_be(&Reading::refused(1, &token), len);
        }
    }
}

/// The areas are zeros that nobody touches: address space, hardly memory.
#[test]
fn data_within_the_limit_only_in_the_low_32_bits_of_their_length_are_refused() {
    let [terms, ..] = TokenTerms::all(&mut Inputs::new(282));
    for low in [0, 16, 32_768] {
        let huge = vec![0; (1 << 32) + low];
        let token = terms.mic(5, &huge[..low]);
        let outcome = calls::mic_write(&terms, 5, &huge, &token, 0);
        outcome.must_be(&Outcome::refused(1, &token), low);
        let reading = calls::mic_read(&terms, &huge, &token, 0, 24);
        reading.must_be(&Reading::refused(1, &token), low);
    }
}

/// With room for some of the longer ones, so that only the length is wrong.
#[test]
fn mic_read_takes_24_octets_and_no_other_number() {
    let mut inputs = Inputs::new(283);
    for terms in TokenTerms::all(&mut inputs) {
        let data = inputs.octets(30);
        let token = [terms.mic(5, &data), inputs.octets(100_000)].concat();
        for length in (0..=1000)
            .chain(OVER_MESSAGE)
            .chain([usize::MAX - 1, usize::MAX])
        {
            let reading = calls::mic_read(&terms, &data, &token, 0, length);
            if length == 24 {
                assert_eq!(reading.answer(), (0, 5, 0, 0));
            } else {
                reading.must_be(&Reading::refused(1, &token), length);
            }
        }
        for length in 1_usize..8 {
            let length = (length << 32) + 24;
            let reading = calls::mic_read(&terms, &data, &token, 0, length);
            reading.must_be(&Reading::refused(1, &token), length);
        }
    }
}

#[test]
fn wrap_write_takes_32_768_octets() {
    let mut inputs = Inputs::new(284);
    for terms in TokenTerms::all(&mut inputs) {
        for (sealed, len) in [
            (false, 32_767),
            (true, 32_767),
            (false, 32_768),
            (true, 32_768),
        ] {
            let wrap = Wrap::new(&mut inputs, sealed, len);
            let buf = [&[0; FRONT], &wrap.message[..], &[0]].concat();
            let outcome = calls::wrap_write(&terms, &wrap, &buf, 0, len);
            assert_eq!((outcome.number, outcome.len), (0, len + 33));
            must_be_octets(&outcome.buf, &terms.wrap(&wrap), len);
        }
    }
}

#[test]
fn wrap_write_refuses_more_and_leaves_the_buffer() {
    let mut inputs = Inputs::new(285);
    for terms in TokenTerms::all(&mut inputs) {
        // With room for some of them, so that only the length is wrong.
        let buf = inputs.octets(100_000);
        for len in OVER_MESSAGE
            .into_iter()
            .chain([usize::MAX - 33, usize::MAX - 32, usize::MAX])
        {
            for sealed in [false, true] {
                let wrap = Wrap::new(&mut inputs, sealed, 0);
                let outcome = calls::wrap_write(&terms, &wrap, &buf, 0, len);
                outcome.must_be(&Outcome::refused(1, &buf), len);
            }
        }
    }
}

#[test]
fn wrap_open_takes_33_to_32_801_octets() {
    let mut inputs = Inputs::new(286);
    for terms in TokenTerms::all(&mut inputs) {
        for length in [33, 34, 32_768, 32_769, 32_800, 32_801] {
            for sealed in [false, true] {
                let wrap = Wrap::new(&mut inputs, sealed, length - 33);
                let token = terms.wrap(&wrap);
                let opened = calls::wrap_open(&terms, &token, 0, length);
                let answer = (0, wrap.sequence, sealed.into(), length - 33);
                assert_eq!(opened.answer(), answer);
                must_be_octets(&opened.buf[32..length - 1], &wrap.message, length);
            }
        }
    }
}

/// The longer ones are written by the rules, so that only the length is wrong.
#[test]
fn wrap_open_refuses_fewer_and_more_and_leaves_the_buffer() {
    let mut inputs = Inputs::new(287);
    for terms in TokenTerms::all(&mut inputs) {
        for sealed in [false, true] {
            for len in [32_769, 32_770, 40_000, 65_503, 65_504, 100_000] {
                let token = terms.wrap(&Wrap::new(&mut inputs, sealed, len));
                let opened = calls::wrap_open(&terms, &token, 0, token.len());
                opened.must_be(&Reading::refused(1, &token), len);
            }
            let token = terms.wrap(&Wrap::new(&mut inputs, sealed, 40));
            let over = OVER_MESSAGE.map(|len| len + 33);
            let low = (1_usize..8).map(|high| (high << 32) + 73);
            for length in (0..=32).chain(over).chain(low).chain([usize::MAX]) {
                let opened = calls::wrap_open(&terms, &token, 0, length);
                opened.must_be(&Reading::refused(1, &token), length);
            }
        }
    }
}

/// A token without its pad, signed as such, is one octet too short.
#[test]
fn a_token_of_32_octets_is_refused_with_1() {
    let mut inputs = Inputs::new(288);
    for terms in TokenTerms::all(&mut inputs) {
        for sealed in [false, true] {
            let wrap = Wrap::new(&mut inputs, sealed, 0);
            let sgn_cksum = terms.sgn_cksum(WRAP_MESSAGE_TYPE, &wrap.header(), &wrap.confounder);
            let token = terms.wrap_with(&wrap, 1, &sgn_cksum);
            let opened = calls::wrap_open(&terms, &token, 0, 32);
            opened.must_be(&Reading::refused(1, &token), terms.name());
        }
    }
}

#[test]
fn the_safe_functions_refuse_other_lengths_and_leave_the_buffer() {
    for terms in TokenTerms::all(&mut Inputs::new(289)) {
        let (context, refused) = (context(&terms), Err(Refusal::Length));
        let mut buf = vec![0x5a; 40_000];
        for len in OVER_MESSAGE {
            for sealed in [false, true] {
                let answer = rc4hmac::wrap_write(&context, 1, &[1; 8], sealed, &mut buf, 0, len);
                assert_eq!(answer, refused, "{len}");
            }
        }
        for length in [0, 1, 24, 32, 32_802, 40_000, usize::MAX] {
            let answer = rc4hmac::wrap_open(&context, &mut buf, 0, length);
            assert_eq!(answer, Err(Refusal::Length), "{length}");
        }
        for length in [0, 1, 23, 25, 33, usize::MAX] {
            let answer = rc4hmac::mic_read(&context, b"data", &buf, 0, length);
            assert_eq!(answer, Err(Refusal::Length), "{length}");
        }
        let data = vec![0; 32_769];
        let answer = rc4hmac::mic_write(&context, 1, &data, &mut buf, 0);
        assert_eq!(answer, refused);
        must_be_octets(&buf, &[0x5a; 40_000], "the buffer");
    }
}

/// Every length beside the limits, compared with the reference implementation.
#[test]
fn lengths_beside_the_limits_have_the_references_outcome() {
    let mut inputs = Inputs::new(290);
    let [.., terms] = TokenTerms::all(&mut inputs);
    let buf = inputs.octets(33_000);
    for len in 32_765..=32_805 {
        for start in [0, 198, 199, 200, 231, 232, 300] {
            let wrap = Wrap::new(&mut inputs, true, 0);
            let expected = token_outcomes::wrap_write(&terms, &wrap, &buf, start, len);
            let outcome = calls::wrap_write(&terms, &wrap, &buf, start, len);
            outcome.must_be(&expected, (len, start));
            let expected = token_outcomes::wrap_open(&terms, &buf, start, len);
            let reading = calls::wrap_open(&terms, &buf, start, len);
            reading.must_be(&expected, (len, start));
        }
    }
}
