//! Tokens with damaged octets: for each place the refusal that the rules give,
//! or another sequence number where nothing protects it. Every octet stays.

use rc4hmac::Refusal;
use reference::{token_outcomes, Reading, TokenTerms, Wrap, MIC};
use support::calls::{self, context};
use support::{must_be_octets, AllTerms, Inputs, MustBe, RandomWrap};

/// Every bit, and several at once.
const DAMAGES: [u8; 10] = [0x01, 0x02, 0x04, 0x08, 0x10, 0x20, 0x40, 0x80, 0xff, 0xa5];

/// The refusal by the place of the damage: 4 in the header, 5 in the direction
/// and in SGN_CKSUM, 6 in the confounder, the message and the pad. Octets 8 to
/// 11 are the sequence number: it makes the key that a token is sealed under,
/// and nothing else depends on it.
fn number(at: usize, sealed: bool) -> u32 {
    match at {
        0..8 => 4,
        8..12 => {
            if sealed {
                6
            } else {
                0
            }
        }
        12..24 => 5,
        _ => 6,
    }
}

/// What a damaged octet makes of the number in SND_SEQ.
fn damaged_sequence(sequence: u32, at: usize, damage: u8) -> u32 {
    sequence ^ u32::from(damage) << (8 * (11 - at))
}

#[track_caller]
fn check_mic(terms: &TokenTerms, data: &[u8], token: &[u8]) -> Reading {
    let expected = token_outcomes::mic_read(terms, data, token, 0, token.len());
    let reading = calls::mic_read(terms, data, token, 0, token.len());
    reading.must_be(&expected, terms.name());
    must_be_octets(&reading.buf, token, terms.name());
    reading
}

#[track_caller]
fn check_wrap(terms: &TokenTerms, token: &[u8]) -> Reading {
    let expected = token_outcomes::wrap_open(terms, token, 0, token.len());
    let reading = calls::wrap_open(terms, token, 0, token.len());
    reading.must_be(&expected, terms.name());
    if reading.number != 0 {
        must_be_octets(&reading.buf, token, terms.name());
    }
    reading
}

#[test]
fn every_damaged_bit_and_octet_of_a_mic_has_its_number() {
    let mut inputs = Inputs::new(221);
    for terms in TokenTerms::all(&mut inputs) {
        for len in [0, 5] {
            let (sequence, data) = (inputs.sequence(), inputs.octets(len));
            let token = terms.mic(sequence, &data);
            assert_eq!(check_mic(&terms, &data, &token).sequence, sequence);
            for at in 0..MIC {
                for damage in DAMAGES {
                    let mut damaged = token.clone();
                    damaged[at] ^= damage;
                    let reading = check_mic(&terms, &data, &damaged);
                    assert_eq!(reading.number, number(at, false), "{at}, {damage}");
                    if (8..12).contains(&at) {
                        let expected = damaged_sequence(sequence, at, damage);
                        assert_eq!(reading.sequence, expected, "{at}, {damage}");
                    }
                }
            }
        }
    }
}

#[test]
fn every_damaged_bit_and_octet_of_a_wrap_token_has_its_number() {
    let mut inputs = Inputs::new(222);
    for terms in TokenTerms::all(&mut inputs) {
        for (sealed, len) in [(true, 0), (true, 5), (false, 0), (false, 5)] {
            let wrap = Wrap::new(&mut inputs, sealed, len);
            let token = terms.wrap(&wrap);
            assert_eq!(check_wrap(&terms, &token).number, 0);
            for at in 0..token.len() {
                for damage in DAMAGES {
                    let mut damaged = token.clone();
                    damaged[at] ^= damage;
                    let reading = check_wrap(&terms, &damaged);
                    assert_eq!(reading.number, number(at, sealed), "{at}, {damage}");
                    if reading.number == 0 {
                        let sequence = damaged_sequence(wrap.sequence, at, damage);
                        assert_eq!(reading.answer(), (0, sequence, 0, len));
                        must_be_octets(&reading.buf, &damaged, (at, damage));
                    }
                }
            }
        }
    }
}

/// Every other value, not only single bits.
#[test]
fn every_other_value_of_the_pad_octet_is_refused_with_6() {
    let mut inputs = Inputs::new(223);
    for terms in TokenTerms::all(&mut inputs) {
        for (sealed, len) in [(true, 0), (true, 5), (false, 0), (false, 5)] {
            let token = terms.wrap(&Wrap::new(&mut inputs, sealed, len));
            for change in 1..=255 {
                let mut damaged = token.clone();
                damaged[len + 32] ^= change;
                assert_eq!(check_wrap(&terms, &damaged).number, 6, "{change}");
            }
        }
    }
}

#[test]
fn damaged_data_of_a_mic_are_refused_with_6() {
    let mut inputs = Inputs::new(224);
    for terms in TokenTerms::all(&mut inputs) {
        let data = inputs.octets(60);
        let token = terms.mic(inputs.sequence(), &data);
        for at in 0..data.len() {
            for damage in DAMAGES {
                let mut damaged = data.clone();
                damaged[at] ^= damage;
                assert_eq!(check_mic(&terms, &damaged, &token).number, 6, "{at}");
            }
        }
        for len in 0..data.len() {
            assert_eq!(check_mic(&terms, &data[..len], &token).number, 6, "{len}");
        }
        let longer = [&data[..], &[0]].concat();
        assert_eq!(check_mic(&terms, &longer, &token).number, 6);
    }
}

#[test]
fn a_damaged_octet_of_a_long_token_is_found() {
    let mut inputs = Inputs::new(225);
    for terms in TokenTerms::all(&mut inputs) {
        let data = inputs.octets(32_768);
        let mic = terms.mic(3, &data);
        for at in [0, 51, 52, 63, 64, 16_384, 32_767] {
            let mut damaged = data.clone();
            damaged[at] ^= 0x80;
            assert_eq!(check_mic(&terms, &damaged, &mic).number, 6, "{at}");
        }
        for sealed in [false, true] {
            let token = terms.wrap(&Wrap::new(&mut inputs, sealed, 32_768));
            for at in [24, 31, 32, 75, 76, 16_384, 32_799, 32_800] {
                let mut damaged = token.clone();
                damaged[at] ^= 0x01;
                assert_eq!(check_wrap(&terms, &damaged).number, 6, "{at}");
            }
        }
    }
}

#[test]
fn a_wrap_token_cut_short_or_made_longer_is_refused_with_6() {
    let mut inputs = Inputs::new(226);
    for terms in TokenTerms::all(&mut inputs) {
        for sealed in [false, true] {
            let token = terms.wrap(&Wrap::new(&mut inputs, sealed, 40));
            for len in 33..token.len() {
                assert_eq!(check_wrap(&terms, &token[..len]).number, 6, "{len}");
            }
            for more in 1..=9 {
                let longer = [&token[..], &vec![1; more]].concat();
                assert_eq!(check_wrap(&terms, &longer).number, 6, "{more}");
                let longer = [&token[..], &inputs.octets(more)].concat();
                assert_eq!(check_wrap(&terms, &longer).number, 6, "{more}");
            }
        }
    }
}

/// The octets on either side belong to the buffer, not to the token.
#[test]
fn a_token_read_one_octet_too_early_or_too_late_is_refused_with_4() {
    let mut inputs = Inputs::new(227);
    for terms in TokenTerms::all(&mut inputs) {
        let data = inputs.octets(20);
        let mic = terms.mic(inputs.sequence(), &data);
        for wrap in [false, true].map(|sealed| Wrap::new(&mut inputs, sealed, 20)) {
            let token = terms.wrap(&wrap);
            let buf = [&[0x02], &mic[..], &token, &[0x01]].concat();
            for start in [0, 2] {
                let refused = Reading::refused(4, &buf);
                calls::mic_read(&terms, &data, &buf, start, 24).must_be(&refused, start);
                calls::wrap_open(&terms, &buf, start + 24, 53).must_be(&refused, start);
            }
            assert_eq!(calls::mic_read(&terms, &data, &buf, 1, 24).number, 0);
            assert_eq!(calls::wrap_open(&terms, &buf, 25, 53).number, 0);
        }
    }
}

/// Where nothing protects the number, a whole other one can be put in.
#[test]
fn any_number_can_be_put_into_a_mic_and_into_a_clear_token() {
    let mut inputs = Inputs::new(228);
    for terms in TokenTerms::all(&mut inputs) {
        let data = inputs.octets(30);
        let wrap = Wrap::new(&mut inputs, false, 30);
        let (mic, token) = (terms.mic(wrap.sequence, &data), terms.wrap(&wrap));
        for sequence in [0, 1, 1 << 31, u32::MAX, inputs.sequence()] {
            let change = (wrap.sequence ^ sequence).to_be_bytes();
            let changed = |token: &[u8]| {
                let mut token = token.to_vec();
                (token[8..12].iter_mut().zip(change)).for_each(|(octet, bits)| *octet ^= bits);
                token
            };
            let reading = check_mic(&terms, &data, &changed(&mic));
            assert_eq!(reading.answer(), (0, sequence, 0, 0));
            let reading = check_wrap(&terms, &changed(&token));
            assert_eq!(reading.answer(), (0, sequence, 0, 30));
        }
    }
}

#[test]
fn the_safe_functions_refuse_damaged_tokens_and_leave_them() {
    let mut inputs = Inputs::new(229);
    for terms in TokenTerms::all(&mut inputs) {
        let wrap = Wrap::new(&mut inputs, terms.export, 20);
        for (at, refusal) in [
            (3, Refusal::Header),
            (14, Refusal::Direction),
            (30, Refusal::Checksum),
            (52, Refusal::Checksum),
        ] {
            let mut token = terms.wrap(&wrap);
            token[at] ^= 0x40;
            let before = token.clone();
            let answer = rc4hmac::wrap_open(&context(&terms), &mut token, 0, 53);
            assert_eq!(answer, Err(refusal), "{at}");
            must_be_octets(&token, &before, at);
        }
        for (at, refusal) in [(3, Refusal::Header), (14, Refusal::Direction)] {
            let mut token = terms.mic(9, b"data");
            token[at] ^= 0x40;
            let answer = rc4hmac::mic_read(&context(&terms), b"data", &token, 0, 24);
            assert_eq!(answer, Err(refusal), "{at}");
        }
    }
}
