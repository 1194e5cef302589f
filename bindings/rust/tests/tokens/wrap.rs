//! Whole Wrap tokens, sealed and clear, compared with the reference
//! implementation.

use rc4hmac::Opened;
use reference::{token_outcomes, TokenTerms, Wrap, CLEAR_HEADER, FRONT, PAD, SEALED_HEADER};
use support::calls::{self, context};
use support::{counting, must_be_octets, AllTerms, Inputs, MustBe, RandomWrap};

const SEQUENCES: [u32; 4] = [0, 1, 1 << 31, u32::MAX];

/// The library writes what the reference implementation writes, and each opens
/// the other's; all octets of a longer buffer are compared.
#[track_caller]
fn compare(inputs: &mut Inputs, terms: &TokenTerms, wrap: &Wrap) {
    let len = wrap.message.len();
    let what = (terms.name(), wrap.sealed, wrap.sequence, len);
    let place = [&inputs.octets(FRONT), &wrap.message[..], &inputs.octets(1)].concat();
    let (buf, start) = inputs.around(&place);
    let expected = token_outcomes::wrap_write(terms, wrap, &buf, start, len);
    let written = calls::wrap_write(terms, wrap, &buf, start, len);
    written.must_be(&expected, what);
    assert_eq!((written.number, written.len), (0, len + 33), "{what:?}");

    let opened = token_outcomes::wrap_open(terms, &written.buf, start, len + 33);
    let answer = (0, wrap.sequence, u32::from(wrap.sealed), len);
    assert_eq!(opened.answer(), answer, "{what:?}");
    let plain = [&wrap.confounder, &wrap.message[..], &[PAD]].concat();
    must_be_octets(&opened.buf[start + 24..][..len + 9], &plain, what);
    calls::wrap_open(terms, &expected.buf, start, len + 33).must_be(&opened, what);
}

#[test]
fn tokens_of_every_length_to_300_are_the_references() {
    let mut inputs = Inputs::new(211);
    for terms in TokenTerms::all(&mut inputs) {
        for sealed in [false, true] {
            for len in 0..=300 {
                let wrap = Wrap::new(&mut inputs, sealed, len);
                compare(&mut inputs, &terms, &wrap);
                let sequence = SEQUENCES[len % 4];
                compare(&mut inputs, &terms, &Wrap { sequence, ..wrap });
            }
        }
    }
}

#[test]
fn tokens_of_long_messages_are_the_references() {
    let mut inputs = Inputs::new(212);
    for terms in TokenTerms::all(&mut inputs) {
        for sealed in [false, true] {
            for len in [
                inputs.number(301, 32_766),
                inputs.number(301, 32_766),
                32_767,
                32_768,
            ] {
                let wrap = Wrap::new(&mut inputs, sealed, len);
                compare(&mut inputs, &terms, &wrap);
            }
        }
    }
}

#[test]
fn tokens_of_every_bit_of_the_number_are_the_references() {
    let mut inputs = Inputs::new(213);
    for terms in TokenTerms::all(&mut inputs) {
        for sequence in (0..32).map(|bit| 1 << bit).chain(SEQUENCES) {
            for len in [0, 5, 43, 44, 100] {
                for sealed in [false, true] {
                    let wrap = Wrap::new(&mut inputs, sealed, len);
                    compare(&mut inputs, &terms, &Wrap { sequence, ..wrap });
                }
            }
        }
    }
}

/// Every bit of the key, the confounder and the message reaches the token.
#[test]
fn tokens_of_every_single_bit_are_the_references() {
    let mut inputs = Inputs::new(214);
    for (export, acceptor) in [(false, false), (false, true), (true, false), (true, true)] {
        for bit in 0..8 * (16 + 8 + 40) {
            let mut octets = [0; 16 + 8 + 40];
            octets[bit / 8] = 1 << (bit % 8);
            let terms = TokenTerms {
                key: octets[..16].try_into().unwrap(),
                export,
                acceptor,
            };
            let wrap = Wrap {
                sequence: 16_909_060,
                confounder: octets[16..24].try_into().unwrap(),
                sealed: bit % 2 == 0,
                message: octets[24..].to_vec(),
            };
            compare(&mut inputs, &terms, &wrap);
            let sealed = !wrap.sealed;
            compare(&mut inputs, &terms, &Wrap { sealed, ..wrap });
        }
    }
}

#[test]
fn tokens_of_zeros_ones_and_counting_octets_are_the_references() {
    let mut inputs = Inputs::new(215);
    for octet in [0x00, 0xff, 0xab, 0xf0, 0x01] {
        for (export, acceptor) in [(false, false), (false, true), (true, false), (true, true)] {
            let key = [octet; 16];
            let terms = TokenTerms {
                key,
                export,
                acceptor,
            };
            for len in [0, 1, 8, 35, 43, 44, 45, 1000] {
                for message in [vec![0x00; len], vec![0xff; len], counting(len)] {
                    for sealed in [false, true] {
                        let wrap = Wrap {
                            sequence: 0x8001_7fff,
                            confounder: [octet; 8],
                            sealed,
                            message: message.clone(),
                        };
                        compare(&mut inputs, &terms, &wrap);
                    }
                }
            }
        }
    }
}

/// As the layout prints them.
#[test]
fn the_references_headers_are_those_written_out() {
    assert_eq!(SEALED_HEADER, [0x02, 0x01, 0x11, 0x00, 0x10, 0, 255, 255]);
    assert_eq!(CLEAR_HEADER, [0x02, 0x01, 0x11, 0x00, 255, 255, 255, 255]);
    assert_eq!((FRONT, PAD), (32, 0x01));
}

/// What stands before the message and in the pad's place is not looked at.
#[test]
fn the_octets_around_the_message_do_not_reach_the_token() {
    let mut inputs = Inputs::new(216);
    for terms in TokenTerms::all(&mut inputs) {
        for (sealed, len) in [(false, 0), (true, 0), (false, 40), (true, 40)] {
            let wrap = Wrap::new(&mut inputs, sealed, len);
            let token = terms.wrap(&wrap);
            for around in [[0x00; FRONT + 1], [0xff; FRONT + 1], inputs.array()] {
                let buf = [&around[..FRONT], &wrap.message, &around[FRONT..]].concat();
                let outcome = calls::wrap_write(&terms, &wrap, &buf, 0, len);
                assert_eq!((outcome.number, outcome.len), (0, len + 33));
                must_be_octets(&outcome.buf, &token, terms.name());
            }
        }
    }
}

#[test]
fn an_empty_message_is_33_octets_with_its_pad_and_comes_back_empty() {
    let mut inputs = Inputs::new(217);
    for terms in TokenTerms::all(&mut inputs) {
        for sealed in [false, true] {
            let wrap = Wrap::new(&mut inputs, sealed, 0);
            let written = calls::wrap_write(&terms, &wrap, &[0; 33], 0, 0);
            assert_eq!((written.number, written.len), (0, 33));
            let opened = calls::wrap_open(&terms, &written.buf, 0, 33);
            assert_eq!(opened.answer(), (0, wrap.sequence, sealed.into(), 0));
            must_be_octets(&opened.buf[..24], &written.buf[..24], terms.name());
            must_be_octets(&opened.buf[24..32], &wrap.confounder, terms.name());
            assert_eq!(opened.buf[32], 0x01);
        }
    }
}

/// A clear token has its confounder, message and pad as they are.
#[test]
fn a_clear_token_opens_as_it_stands() {
    let mut inputs = Inputs::new(218);
    for terms in TokenTerms::all(&mut inputs) {
        for len in [0, 1, 40, 1000] {
            let wrap = Wrap::new(&mut inputs, false, len);
            let token = terms.wrap(&wrap);
            must_be_octets(&token[24..32], &wrap.confounder, len);
            must_be_octets(&token[32..32 + len], &wrap.message, len);
            let opened = calls::wrap_open(&terms, &token, 0, token.len());
            assert_eq!(opened.answer(), (0, wrap.sequence, 0, len));
            must_be_octets(&opened.buf, &token, len);
        }
    }
}

#[test]
fn the_safe_functions_write_and_open_the_references_tokens() {
    let mut inputs = Inputs::new(219);
    for terms in TokenTerms::all(&mut inputs) {
        let context = context(&terms);
        for sealed in [false, true] {
            for len in [0, 1, 60, 300, 32_768] {
                let wrap = Wrap::new(&mut inputs, sealed, len);
                let (sequence, confounder) = (wrap.sequence, &wrap.confounder);
                let mut buf = [&[0x5a; 5 + FRONT], &wrap.message[..], &[0x5a; 3]].concat();
                let token = [&[0x5a; 5], &terms.wrap(&wrap)[..], &[0x5a; 2]].concat();
                let written =
                    rc4hmac::wrap_write(&context, sequence, confounder, sealed, &mut buf, 5, len);
                assert_eq!(written, Ok(len + 33));
                must_be_octets(&buf, &token, (terms.name(), len));

                let opened = Opened {
                    sequence,
                    sealed,
                    message_len: len,
                };
                let answer = rc4hmac::wrap_open(&context, &mut buf, 5, len + 33);
                assert_eq!(answer, Ok(opened));
                must_be_octets(&buf[..29], &token[..29], (terms.name(), len));
                let plain = [confounder, &wrap.message[..], &[1, 0x5a, 0x5a]].concat();
                must_be_octets(&buf[29..], &plain, (terms.name(), len));
            }
        }
    }
}

#[test]
fn tokens_take_a_confounder_that_shares_octets_with_the_key() {
    for terms in TokenTerms::all(&mut Inputs::new(220)) {
        let context = context(&terms);
        for at in 0..=8 {
            let confounder: &[u8; 8] = context.key[at..][..8].try_into().unwrap();
            let mut buf = [&[0; FRONT], &b"a record"[..], &[0]].concat();
            let written = rc4hmac::wrap_write(&context, 3, confounder, true, &mut buf, 0, 8);
            assert_eq!(written, Ok(41));
            let wrap = Wrap {
                sequence: 3,
                confounder: *confounder,
                sealed: true,
                message: b"a record".to_vec(),
            };
            must_be_octets(&buf, &terms.wrap(&wrap), at);
        }
    }
}

#[test]
fn several_tokens_stand_side_by_side_in_one_buffer() {
    let mut inputs = Inputs::new(230);
    let [terms, ..] = TokenTerms::all(&mut inputs);
    let wraps: Vec<Wrap> = (0..5)
        .map(|i| Wrap::new(&mut inputs, i % 2 == 0, 10 * i))
        .collect();
    let tokens: Vec<Vec<u8>> = wraps.iter().map(|wrap| terms.wrap(wrap)).collect();
    let mut buf = tokens.concat();
    for i in [3, 0, 4, 2, 1] {
        let start = tokens[..i].concat().len();
        let opened = rc4hmac::wrap_open(&context(&terms), &mut buf, start, 33 + 10 * i).unwrap();
        assert_eq!(
            (opened.sequence, opened.message_len),
            (wraps[i].sequence, 10 * i)
        );
    }
    let opened = wraps.iter().zip(&tokens).map(|(wrap, token)| {
        let plain = [&wrap.confounder, &wrap.message[..], &[PAD]].concat();
        [&token[..24], &plain].concat()
    });
    must_be_octets(&buf, &opened.collect::<Vec<_>>().concat(), "all opened");
}
