//! Whole MIC tokens, compared with the reference implementation.

use rc4hmac::MIC_LEN;
use reference::{token_outcomes, Reading, TokenTerms, MIC, MIC_HEADER};
use support::calls::{self, context};
use support::{counting, must_be_octets, AllTerms, Inputs, MustBe};

const SEQUENCES: [u32; 4] = [0, 1, 1 << 31, u32::MAX];

/// The library writes what the reference implementation writes, and each reads
/// the other's; all octets of a longer buffer are compared.
#[track_caller]
fn compare(inputs: &mut Inputs, terms: &TokenTerms, sequence: u32, data: &[u8]) {
    let what = (terms.name(), sequence, data.len());
    let place = inputs.octets(MIC);
    let (buf, start) = inputs.around(&place);
    let expected = token_outcomes::mic_write(terms, sequence, data, &buf, start);
    let written = calls::mic_write(terms, sequence, data, &buf, start);
    written.must_be(&expected, what);
    assert_eq!((written.number, written.len), (0, 24), "{what:?}");

    let read = token_outcomes::mic_read(terms, data, &written.buf, start, MIC);
    assert_eq!(read.answer(), (0, sequence, 0, 0), "{what:?}");
    calls::mic_read(terms, data, &expected.buf, start, MIC).must_be(&read, what);
}

#[test]
fn tokens_of_every_length_to_300_are_the_references() {
    let mut inputs = Inputs::new(201);
    for terms in TokenTerms::all(&mut inputs) {
        for len in 0..=300 {
            let (sequence, data) = (inputs.sequence(), inputs.octets(len));
            compare(&mut inputs, &terms, sequence, &data);
            compare(&mut inputs, &terms, SEQUENCES[len % 4], &data);
        }
    }
}

#[test]
fn tokens_of_long_data_are_the_references() {
    let mut inputs = Inputs::new(202);
    for terms in TokenTerms::all(&mut inputs) {
        for len in [
            inputs.number(301, 32_766),
            inputs.number(301, 32_766),
            32_767,
            32_768,
        ] {
            let (sequence, data) = (inputs.sequence(), inputs.octets(len));
            compare(&mut inputs, &terms, sequence, &data);
        }
    }
}

#[test]
fn tokens_of_every_bit_of_the_number_are_the_references() {
    let mut inputs = Inputs::new(203);
    for terms in TokenTerms::all(&mut inputs) {
        for sequence in (0..32).map(|bit| 1 << bit).chain(SEQUENCES) {
            for len in [0, 5, 43, 44, 100] {
                let data = inputs.octets(len);
                compare(&mut inputs, &terms, sequence, &data);
            }
        }
    }
}

/// Every bit of the key and the data reaches the token.
#[test]
fn tokens_of_every_single_bit_are_the_references() {
    let mut inputs = Inputs::new(204);
    for (export, acceptor) in [(false, false), (false, true), (true, false), (true, true)] {
        for bit in 0..8 * (16 + 60) {
            let mut octets = [0; 16 + 60];
            octets[bit / 8] = 1 << (bit % 8);
            let terms = TokenTerms {
                key: octets[..16].try_into().unwrap(),
                export,
                acceptor,
            };
            compare(&mut inputs, &terms, 16_909_060, &octets[16..]);
        }
    }
}

#[test]
fn tokens_of_zeros_ones_and_counting_octets_are_the_references() {
    let mut inputs = Inputs::new(205);
    for key in [[0x00; 16], [0xff; 16], [0xab; 16], [0xf0; 16]] {
        for (export, acceptor) in [(false, false), (false, true), (true, false), (true, true)] {
            let terms = TokenTerms {
                key,
                export,
                acceptor,
            };
            for len in [0, 1, 8, 43, 44, 51, 52, 53, 64, 1000] {
                for data in [vec![0x00; len], vec![0xff; len], counting(len)] {
                    compare(&mut inputs, &terms, 0x8001_7fff, &data);
                }
            }
        }
    }
}

/// The header and the plain SND_SEQ as the rules print them.
#[test]
fn the_references_fields_are_those_written_out() {
    assert_eq!(MIC_HEADER, [0x01, 0x01, 0x11, 0x00, 255, 255, 255, 255]);
    let [initiator, acceptor, ..] = TokenTerms::all(&mut Inputs::new(206));
    let field = initiator.plain_send_seq(16_909_060);
    assert_eq!(field, [1, 2, 3, 4, 0, 0, 0, 0]);
    let field = acceptor.plain_send_seq(u32::MAX);
    assert_eq!(field, [255, 255, 255, 255, 255, 255, 255, 255]);
}

/// What stands where the token goes is not looked at.
#[test]
fn the_octets_in_the_tokens_place_do_not_reach_it() {
    let mut inputs = Inputs::new(207);
    for terms in TokenTerms::all(&mut inputs) {
        let (sequence, data) = (inputs.sequence(), inputs.octets(40));
        let token = terms.mic(sequence, &data);
        for before in [[0x00; MIC], [0xff; MIC], inputs.array()] {
            let outcome = calls::mic_write(&terms, sequence, &data, &before, 0);
            must_be_octets(&outcome.buf, &token, terms.name());
        }
    }
}

#[test]
fn the_safe_functions_write_and_read_the_references_tokens() {
    let mut inputs = Inputs::new(208);
    for terms in TokenTerms::all(&mut inputs) {
        let context = context(&terms);
        for (len, sequence) in [0, 1, 60, 300, 32_768].into_iter().zip(0x7fff_fffe..) {
            let data = inputs.octets(len);
            let mut buf = inputs.octets(30);
            let expected = token_outcomes::mic_write(&terms, sequence, &data, &buf, 5);
            let written = rc4hmac::mic_write(&context, sequence, &data, &mut buf, 5);
            assert_eq!(written, Ok(MIC_LEN));
            must_be_octets(&buf, &expected.buf, (terms.name(), len));
            let read = rc4hmac::mic_read(&context, &data, &buf, 5, MIC_LEN);
            assert_eq!(read, Ok(sequence));
        }
    }
}

/// Shared borrows may overlap: the key with the data, and both with the buffer.
#[test]
fn the_safe_functions_take_areas_that_share_octets() {
    let mut inputs = Inputs::new(209);
    for terms in TokenTerms::all(&mut inputs) {
        let context = context(&terms);
        let mut buf = [0; MIC];
        for data in [&context.key[..], &context.key[3..9]] {
            rc4hmac::mic_write(&context, 7, data, &mut buf, 0).unwrap();
            must_be_octets(&buf, &terms.mic(7, data), terms.name());
            assert_eq!(rc4hmac::mic_read(&context, data, &buf, 0, MIC), Ok(7));
        }

        // The data, and then their token, in one buffer.
        let data = inputs.octets(100);
        let whole = [&data[..], &terms.mic(8, &data)].concat();
        assert_eq!(
            rc4hmac::mic_read(&context, &whole[..100], &whole, 100, MIC),
            Ok(8)
        );
    }
}

/// A token of one number is no token of another, and the reader tells it.
#[test]
fn the_reader_answers_the_number_that_was_written() {
    let mut inputs = Inputs::new(210);
    for terms in TokenTerms::all(&mut inputs) {
        let data = inputs.octets(20);
        for _ in 0..200 {
            let sequence = inputs.sequence();
            let token = terms.mic(sequence, &data);
            let expected = Reading {
                sequence,
                ..Reading::refused(0, &token)
            };
            calls::mic_read(&terms, &data, &token, 0, MIC).must_be(&expected, sequence);
        }
    }
}
