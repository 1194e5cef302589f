//! The eight header octets: another kind's, another algorithm's, another
//! filler. All are refused with 4, whatever else the token holds.

use reference::{
    token_outcomes, Reading, TokenTerms, Wrap, CLEAR_HEADER, MIC_HEADER, MIC_MESSAGE_TYPE, PAD,
    SEALED_HEADER, WRAP_MESSAGE_TYPE,
};
use support::{calls, AllTerms, Inputs, MustBe, RandomWrap};

/// Headers that are near to those of a token, but are none.
const OTHERS: [[u8; 8]; 14] = [
    [0x02, 0x01, 0x11, 0x00, 0x00, 0x00, 0xff, 0xff], // SEAL_ALG of DES
    [0x02, 0x01, 0x11, 0x00, 0x00, 0x10, 0xff, 0xff], // the wrong way round
    [0x02, 0x01, 0x11, 0x00, 0x10, 0xff, 0xff, 0xff],
    [0x02, 0x01, 0x11, 0x00, 0xff, 0x00, 0xff, 0xff],
    [0x02, 0x01, 0x11, 0x00, 0x10, 0x00, 0x00, 0x00], // fillers
    [0x02, 0x01, 0x11, 0x00, 0xff, 0xff, 0x00, 0x00],
    [0x02, 0x01, 0x11, 0x00, 0x10, 0x00, 0xff, 0xfe],
    [0x02, 0x01, 0x00, 0x00, 0xff, 0xff, 0xff, 0xff], // SGN_ALG of DES
    [0x02, 0x01, 0x00, 0x11, 0x10, 0x00, 0xff, 0xff],
    [0x01, 0x02, 0x11, 0x00, 0x10, 0x00, 0xff, 0xff], // TOK_ID
    [0x05, 0x04, 0x11, 0x00, 0xff, 0xff, 0xff, 0xff],
    [0x01, 0x01, 0x11, 0x00, 0x10, 0x00, 0xff, 0xff],
    [0x01, 0x01, 0x11, 0x00, 0x00, 0x00, 0x00, 0x00],
    [0x00; 8],
];

/// A token that is right in all but its header, which is signed with it.
fn headed(terms: &TokenTerms, header: &[u8; 8], wrap: &Wrap) -> Vec<u8> {
    let sgn_cksum = terms.sgn_cksum(WRAP_MESSAGE_TYPE, header, &wrap.plain(PAD));
    let front = terms.first_24(header, wrap.sequence, &sgn_cksum);
    [&front, &terms.wrap(wrap)[24..]].concat()
}

fn mic_headed(terms: &TokenTerms, header: &[u8; 8], data: &[u8]) -> Vec<u8> {
    terms.first_24(header, 7, &terms.sgn_cksum(MIC_MESSAGE_TYPE, header, data))
}

#[track_caller]
fn check_wrap(terms: &TokenTerms, token: &[u8]) {
    let reading = calls::wrap_open(terms, token, 0, token.len());
    reading.must_be(&Reading::refused(4, token), (terms.name(), &token[..8]));
}

#[track_caller]
fn check_mic(terms: &TokenTerms, data: &[u8], token: &[u8]) {
    let reading = calls::mic_read(terms, data, token, 0, token.len());
    reading.must_be(&Reading::refused(4, token), (terms.name(), &token[..8]));
}

#[test]
fn every_other_value_of_every_header_octet_is_refused() {
    let mut inputs = Inputs::new(251);
    for terms in TokenTerms::all(&mut inputs) {
        let wraps = [false, true].map(|sealed| Wrap::new(&mut inputs, sealed, 3));
        for at in 0..8 {
            for change in 1..=255 {
                for wrap in &wraps {
                    let mut token = terms.wrap(wrap);
                    token[at] ^= change;
                    check_wrap(&terms, &token);
                }
                let mut token = terms.mic(7, b"data");
                token[at] ^= change;
                check_mic(&terms, b"data", &token);
            }
        }
    }
}

#[test]
fn other_headers_are_refused_also_where_they_are_signed() {
    let mut inputs = Inputs::new(252);
    for terms in TokenTerms::all(&mut inputs) {
        let wraps = [false, true].map(|sealed| Wrap::new(&mut inputs, sealed, 20));
        for header in OTHERS {
            for wrap in &wraps {
                check_wrap(&terms, &headed(&terms, &header, wrap));
            }
            check_mic(&terms, b"data", &mic_headed(&terms, &header, b"data"));
        }
        for wrap in &wraps {
            assert!(headed(&terms, &wrap.header(), wrap) == terms.wrap(wrap));
            check_wrap(&terms, &headed(&terms, &MIC_HEADER, wrap));
        }
        for header in [SEALED_HEADER, CLEAR_HEADER] {
            check_mic(&terms, b"data", &mic_headed(&terms, &header, b"data"));
        }
    }
}

/// All 65,536 values of SEAL_ALG: two are taken.
#[test]
fn two_values_of_the_sealing_algorithm_are_taken() {
    let mut inputs = Inputs::new(253);
    let [terms, ..] = TokenTerms::all(&mut inputs);
    let wrap = Wrap::new(&mut inputs, true, 0);
    let mut token = terms.wrap(&wrap);
    for algorithm in 0..=u16::MAX {
        token[4..6].copy_from_slice(&algorithm.to_be_bytes());
        let number = match algorithm {
            0x1000 => 0,
            0xffff => 6,
            _ => 4,
        };
        let reading = calls::wrap_open(&terms, &token, 0, 33);
        assert_eq!(reading.number, number, "{algorithm:04x}");
    }
}

/// The header is under the checksum: a sealed token made a clear one, and the
/// reverse, gets past 4 and no further than 6.
#[test]
fn a_clear_header_on_a_sealed_token_and_the_reverse_are_refused_with_6() {
    let mut inputs = Inputs::new(254);
    for terms in TokenTerms::all(&mut inputs) {
        for len in [0, 5, 100] {
            for sealed in [false, true] {
                let wrap = Wrap::new(&mut inputs, sealed, len);
                let mut token = terms.wrap(&wrap);
                let other = Wrap {
                    sealed: !sealed,
                    ..wrap
                };
                token[..8].copy_from_slice(&other.header());
                let expected = token_outcomes::wrap_open(&terms, &token, 0, token.len());
                let reading = calls::wrap_open(&terms, &token, 0, token.len());
                reading.must_be(&expected, (terms.name(), sealed, len));
                reading.must_be(&Reading::refused(6, &token), (terms.name(), sealed, len));
            }
        }
    }
}

#[test]
fn a_mic_is_no_wrap_token_and_a_wrap_token_no_mic() {
    let mut inputs = Inputs::new(255);
    for terms in TokenTerms::all(&mut inputs) {
        let data = inputs.octets(30);
        let mic = terms.mic(inputs.sequence(), &data);
        for more in [9, 10, 39, 1000] {
            let token = [&mic[..], &inputs.octets(more)].concat();
            check_wrap(&terms, &token);
        }
        // What a MIC signs, in the place of what a Wrap token signs.
        check_wrap(&terms, &[&mic[..], &data].concat());

        for sealed in [false, true] {
            let wrap = Wrap::new(&mut inputs, sealed, 30);
            let token = terms.wrap(&wrap);
            check_mic(&terms, &wrap.message, &token[..24]);
            check_mic(&terms, &wrap.plain(PAD), &token[..24]);
        }
    }
}
