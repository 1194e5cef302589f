//! The last octet of a Wrap token: refused with 7 if it was signed as another
//! than 01, and the only octet that is looked at for that.

use rc4hmac::Refusal;
use reference::{token_outcomes, Reading, TokenTerms, Wrap, PAD};
use support::calls::{self, context};
use support::{must_be_octets, AllTerms, Inputs, MustBe, RandomWrap};

const LENS: [usize; 5] = [0, 1, 5, 35, 100];

/// Under a checksum of its own: nothing but the test of the pad finds it.
#[test]
fn every_other_last_octet_is_refused_with_7_and_the_token_left() {
    let mut inputs = Inputs::new(231);
    for terms in TokenTerms::all(&mut inputs) {
        for sealed in [false, true] {
            for len in LENS {
                let wrap = Wrap::new(&mut inputs, sealed, len);
                for last in 0..=255 {
                    let token = terms.wrap_ending(&wrap, last);
                    let (buf, start) = inputs.around(&token);
                    let opened = calls::wrap_open(&terms, &buf, start, token.len());
                    let what = (terms.name(), sealed, len, last);
                    if last == PAD {
                        let answer = (0, wrap.sequence, sealed.into(), len);
                        assert_eq!(opened.answer(), answer, "{what:?}");
                    } else {
                        opened.must_be(&Reading::refused(7, &buf), what);
                    }
                    let expected = token_outcomes::wrap_open(&terms, &buf, start, token.len());
                    opened.must_be(&expected, what);
                }
            }
        }
    }
}

#[test]
fn a_long_token_with_another_last_octet_is_refused_with_7_and_left() {
    let mut inputs = Inputs::new(232);
    for terms in TokenTerms::all(&mut inputs) {
        for sealed in [false, true] {
            let wrap = Wrap::new(&mut inputs, sealed, 32_768);
            for last in [0x00, 0x02, 0x08, 0xff] {
                let token = terms.wrap_ending(&wrap, last);
                let opened = calls::wrap_open(&terms, &token, 0, token.len());
                opened.must_be(&Reading::refused(7, &token), (terms.name(), last));
            }
        }
    }
}

/// A message may end as more padding would: its octets are all its own.
#[test]
fn the_octets_before_the_last_are_the_messages() {
    let mut inputs = Inputs::new(233);
    for terms in TokenTerms::all(&mut inputs) {
        for sealed in [false, true] {
            for octet in [0x00, 0x01, 0x02, 0x03, 0x08, 0xff] {
                for len in [1, 2, 3, 8, 9] {
                    let wrap = Wrap {
                        message: vec![octet; len],
                        ..Wrap::new(&mut inputs, sealed, 0)
                    };
                    let token = terms.wrap(&wrap);
                    let opened = calls::wrap_open(&terms, &token, 0, token.len());
                    let answer = (0, wrap.sequence, sealed.into(), len);
                    assert_eq!(opened.answer(), answer, "{octet}, {len}");
                    must_be_octets(&opened.buf[24..], &wrap.plain(PAD), (octet, len));
                }
            }
        }
    }
}

/// As other mechanisms pad: eight octets of 08, or to a whole block.
#[test]
fn longer_paddings_are_refused_with_7() {
    let mut inputs = Inputs::new(234);
    for terms in TokenTerms::all(&mut inputs) {
        for sealed in [false, true] {
            for pad in 2..=8_u8 {
                let mut wrap = Wrap::new(&mut inputs, sealed, 20);
                wrap.message.extend(vec![pad; usize::from(pad) - 1]);
                let token = terms.wrap_ending(&wrap, pad);
                let opened = calls::wrap_open(&terms, &token, 0, token.len());
                opened.must_be(&Reading::refused(7, &token), (terms.name(), pad));
            }
        }
    }
}

/// The last octet as it stands in a sealed token is not the pad.
#[test]
fn the_pad_of_a_sealed_token_is_tested_after_opening() {
    let mut inputs = Inputs::new(235);
    for terms in TokenTerms::all(&mut inputs) {
        let mut met = 0;
        while met < 3 {
            let wrap = Wrap::new(&mut inputs, true, 4);
            for last in 0..=255 {
                let token = terms.wrap_ending(&wrap, last);
                if token[36] == PAD && last != PAD {
                    let opened = calls::wrap_open(&terms, &token, 0, 37);
                    opened.must_be(&Reading::refused(7, &token), terms.name());
                    met += 1;
                }
            }
        }
    }
}

#[test]
fn the_safe_function_refuses_another_pad_and_leaves_the_token() {
    let mut inputs = Inputs::new(236);
    for terms in TokenTerms::all(&mut inputs) {
        for sealed in [false, true] {
            let mut token = terms.wrap_ending(&Wrap::new(&mut inputs, sealed, 9), 0x00);
            let before = token.clone();
            let answer = rc4hmac::wrap_open(&context(&terms), &mut token, 0, 42);
            assert_eq!(answer, Err(Refusal::Pad));
            must_be_octets(&token, &before, sealed);
        }
    }
}
