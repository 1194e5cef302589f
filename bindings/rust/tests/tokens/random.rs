//! Octets at random as tokens, with more and more of a token right: the outcome
//! of the reference implementation for each.

use reference::{token_outcomes, TokenTerms, Wrap, CLEAR_HEADER, MIC_HEADER, PAD, SEALED_HEADER};
use support::{calls, AllTerms, Inputs, MustBe, RandomWrap};

/// How many of each kind.
const TRIES: usize = 2_000;

#[track_caller]
fn check_mic(terms: &TokenTerms, data: &[u8], buf: &[u8], start: usize, length: usize) -> u32 {
    let expected = token_outcomes::mic_read(terms, data, buf, start, length);
    let reading = calls::mic_read(terms, data, buf, start, length);
    reading.must_be(&expected, (terms.name(), start, length));
    reading.number
}

#[track_caller]
fn check_wrap(terms: &TokenTerms, buf: &[u8], start: usize, length: usize) -> u32 {
    let expected = token_outcomes::wrap_open(terms, buf, start, length);
    let reading = calls::wrap_open(terms, buf, start, length);
    reading.must_be(&expected, (terms.name(), start, length));
    reading.number
}

fn wrap_header(inputs: &mut Inputs) -> [u8; 8] {
    [SEALED_HEADER, CLEAR_HEADER][inputs.number(0, 1)]
}

#[test]
fn octets_at_random_are_refused_with_4() {
    let mut inputs = Inputs::new(271);
    for terms in TokenTerms::all(&mut inputs) {
        for _ in 0..TRIES {
            let (octets, data) = (inputs.octets(24), inputs.octets(9));
            let (buf, start) = inputs.around(&octets);
            assert_eq!(check_mic(&terms, &data, &buf, start, 24), 4);
            let length = inputs.number(33, 150);
            let octets = inputs.octets(length);
            let (buf, start) = inputs.around(&octets);
            assert_eq!(check_wrap(&terms, &buf, start, length), 4);
        }
    }
}

#[test]
fn octets_at_random_behind_a_right_header_are_refused_with_5() {
    let mut inputs = Inputs::new(272);
    for terms in TokenTerms::all(&mut inputs) {
        for _ in 0..TRIES {
            let data = inputs.octets(9);
            let token = [&MIC_HEADER[..], &inputs.octets(16)].concat();
            assert_eq!(check_mic(&terms, &data, &token, 0, 24), 5);
            let length = inputs.number(33, 150);
            let header = wrap_header(&mut inputs);
            let token = [&header[..], &inputs.octets(length - 8)].concat();
            assert_eq!(check_wrap(&terms, &token, 0, length), 5);
        }
    }
}

#[test]
fn octets_at_random_behind_a_right_direction_are_refused_with_6() {
    let mut inputs = Inputs::new(273);
    for terms in TokenTerms::all(&mut inputs) {
        for _ in 0..TRIES {
            let (data, sequence) = (inputs.octets(9), inputs.sequence());
            let token = terms.first_24(&MIC_HEADER, sequence, &inputs.array());
            assert_eq!(check_mic(&terms, &data, &token, 0, 24), 6);
            let length = inputs.number(33, 150);
            let header = wrap_header(&mut inputs);
            let front = terms.first_24(&header, sequence, &inputs.array());
            let token = [front, inputs.octets(length - 24)].concat();
            assert_eq!(check_wrap(&terms, &token, 0, length), 6);
        }
    }
}

/// Signed as they are: what stands in the pad's place decides.
#[test]
fn octets_at_random_under_a_right_checksum_open_or_are_refused_with_7() {
    let mut inputs = Inputs::new(274);
    for terms in TokenTerms::all(&mut inputs) {
        for _ in 0..TRIES {
            let len = inputs.number(0, 120);
            let sealed = inputs.number(0, 1) == 1;
            let wrap = Wrap::new(&mut inputs, sealed, len);
            let last = inputs.number(0, 2) as u8;
            let token = terms.wrap_ending(&wrap, last);
            let (buf, start) = inputs.around(&token);
            let number = if last == PAD { 0 } else { 7 };
            assert_eq!(check_wrap(&terms, &buf, start, token.len()), number);
        }
    }
}

/// Starts and lengths at random too: any of the numbers may come.
#[test]
fn any_arguments_have_the_references_outcome() {
    let mut inputs = Inputs::new(275);
    let mut met = [0; 8];
    for terms in TokenTerms::all(&mut inputs) {
        for _ in 0..TRIES {
            let (len, sealed) = (inputs.number(0, 20), inputs.number(0, 1) == 1);
            let wrap = Wrap::new(&mut inputs, sealed, len);
            let token = terms.wrap_ending(&wrap, inputs.number(1, 2) as u8);
            let (mut buf, start) = inputs.around(&token);
            if inputs.number(0, 1) == 1 {
                buf[start + inputs.number(0, token.len() - 1)] ^= 0x10;
            }
            let start = start + inputs.number(0, 4) / 4;
            let length = token.len() + inputs.number(0, 5) / 5;
            met[check_wrap(&terms, &buf, start, length) as usize] += 1;
            let length = inputs.number(30, 60);
            met[check_wrap(&terms, &buf, start, length) as usize] += 1;
        }
    }
    // Every refusal but the usage's, and opened tokens.
    assert!(
        (0..8).all(|number| (met[number] > 20) == (number != 3)),
        "{met:?}"
    );
}

#[test]
fn written_tokens_at_random_places_have_the_references_outcome() {
    let mut inputs = Inputs::new(276);
    let mut met = [0; 3];
    for terms in TokenTerms::all(&mut inputs) {
        for _ in 0..TRIES {
            let sealed = inputs.number(0, 1) == 1;
            let wrap = Wrap::new(&mut inputs, sealed, 0);
            let buf_len = inputs.number(0, 120);
            let buf = inputs.octets(buf_len);
            let (start, len) = (inputs.number(0, 60), inputs.number(0, 60));
            let expected = token_outcomes::wrap_write(&terms, &wrap, &buf, start, len);
            let outcome = calls::wrap_write(&terms, &wrap, &buf, start, len);
            outcome.must_be(&expected, (buf.len(), start, len));
            met[outcome.number as usize] += 1;
            let data = inputs.octets(len);
            let expected = token_outcomes::mic_write(&terms, 5, &data, &buf, start);
            let outcome = calls::mic_write(&terms, 5, &data, &buf, start);
            outcome.must_be(&expected, (buf.len(), start, len));
            met[outcome.number as usize] += 1;
        }
    }
    assert!(met[0] > TRIES && met[1] == 0 && met[2] > TRIES, "{met:?}");
}
