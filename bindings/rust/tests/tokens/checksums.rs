//! Tokens with another SGN_CKSUM, under which SND_SEQ and the body come out
//! right: nothing but the comparison of the whole checksum finds it, with 6.

use reference::{
    hmac_md5, md5, Reading, TokenTerms, Wrap, MIC_HEADER, MIC_MESSAGE_TYPE, PAD, WRAP_MESSAGE_TYPE,
};
use support::{calls, AllTerms, Inputs, MustBe, RandomWrap};

const LENS: [usize; 3] = [0, 5, 60];

#[track_caller]
fn check_mic(terms: &TokenTerms, data: &[u8], sgn_cksum: &[u8; 8]) {
    let token = terms.mic_with(0x0102_0304, sgn_cksum);
    let reading = calls::mic_read(terms, data, &token, 0, 24);
    reading.must_be(&Reading::refused(6, &token), (terms.name(), data.len()));
}

#[track_caller]
fn check_wrap(terms: &TokenTerms, wrap: &Wrap, last: u8, sgn_cksum: &[u8; 8]) {
    let token = terms.wrap_with(wrap, last, sgn_cksum);
    let reading = calls::wrap_open(terms, &token, 0, token.len());
    let what = (terms.name(), wrap.sealed, wrap.message.len());
    reading.must_be(&Reading::refused(6, &token), what);
}

/// The right one with one bit turned, with several, or another altogether.
fn wrong_ones(inputs: &mut Inputs, right: [u8; 8]) -> Vec<[u8; 8]> {
    let mut wrong = vec![[0x00; 8], [0xff; 8], inputs.array(), inputs.array()];
    wrong.extend((0..64).map(|bit| (u64::from_be_bytes(right) ^ 1 << bit).to_be_bytes()));
    for at in 0..8 {
        let mut octets = right;
        octets[at] ^= 0xff;
        wrong.push(octets);
        octets.reverse();
        wrong.push(octets);
    }
    wrong
}

#[test]
fn every_bit_of_a_mics_checksum_is_compared() {
    let mut inputs = Inputs::new(241);
    for terms in TokenTerms::all(&mut inputs) {
        for len in LENS {
            let data = inputs.octets(len);
            let right = terms.mic_cksum(&data);
            for wrong in wrong_ones(&mut inputs, right) {
                check_mic(&terms, &data, &wrong);
            }
            let token = terms.mic_with(0x0102_0304, &right);
            let reading = calls::mic_read(&terms, &data, &token, 0, 24);
            assert_eq!(reading.answer(), (0, 0x0102_0304, 0, 0));
        }
    }
}

#[test]
fn every_bit_of_a_wrap_tokens_checksum_is_compared() {
    let mut inputs = Inputs::new(242);
    for terms in TokenTerms::all(&mut inputs) {
        for sealed in [false, true] {
            for len in LENS {
                let wrap = Wrap::new(&mut inputs, sealed, len);
                let right = terms.wrap_cksum(&wrap, PAD);
                for wrong in wrong_ones(&mut inputs, right) {
                    check_wrap(&terms, &wrap, PAD, &wrong);
                }
                let token = terms.wrap_with(&wrap, PAD, &right);
                let reading = calls::wrap_open(&terms, &token, 0, token.len());
                let answer = (0, wrap.sequence, sealed.into(), len);
                assert_eq!(reading.answer(), answer);
            }
        }
    }
}

#[test]
fn a_long_sealed_token_with_another_checksum_is_left_sealed() {
    let mut inputs = Inputs::new(243);
    for terms in TokenTerms::all(&mut inputs) {
        let wrap = Wrap::new(&mut inputs, true, 32_768);
        let mut wrong = terms.wrap_cksum(&wrap, PAD);
        wrong[7] ^= 0x80;
        check_wrap(&terms, &wrap, PAD, &wrong);
    }
}

/// Checksums of the right octets by other rules: the last eight of the HMAC, the
/// key itself for Ksign, none of MD5, the message type the wrong way round, the
/// header of the other kind and no header.
fn by_other_rules(
    terms: &TokenTerms,
    message_type: u32,
    [header, other_header]: [[u8; 8]; 2],
    signed: &[u8],
) -> Vec<[u8; 8]> {
    let ksign = hmac_md5(&terms.key, b"signaturekey\0");
    let text = |message_type: [u8; 4], header: &[u8]| [&message_type, header, signed].concat();
    let (low_first, high_first) = (message_type.to_le_bytes(), message_type.to_be_bytes());
    let right = text(low_first, &header);
    let whole = hmac_md5(&ksign, &md5(&right));
    assert_eq!(terms.sgn_cksum(message_type, &header, signed), whole[..8]);

    let others = [
        hmac_md5(&terms.key, &md5(&right)),
        hmac_md5(&ksign, &right),
        hmac_md5(&ksign, &md5(&text(high_first, &header))),
        hmac_md5(&ksign, &md5(&text(low_first, &other_header))),
        hmac_md5(&ksign, &md5(&text(low_first, &[]))),
    ];
    let firsts = others.iter().map(|other| &other[..8]);
    let lasts = others.iter().chain([&whole]).map(|other| &other[8..]);
    (firsts.chain(lasts))
        .map(|eight| eight.try_into().unwrap())
        .collect()
}

#[test]
fn checksums_by_other_rules_are_refused_with_6() {
    let mut inputs = Inputs::new(244);
    for terms in TokenTerms::all(&mut inputs) {
        for sealed in [false, true] {
            let wrap = Wrap::new(&mut inputs, sealed, 20);
            let (headers, plain) = ([wrap.header(), MIC_HEADER], wrap.plain(PAD));
            for wrong in by_other_rules(&terms, WRAP_MESSAGE_TYPE, headers, &plain) {
                check_wrap(&terms, &wrap, PAD, &wrong);
            }
            let (headers, data) = ([MIC_HEADER, wrap.header()], wrap.message);
            for wrong in by_other_rules(&terms, MIC_MESSAGE_TYPE, headers, &data) {
                check_mic(&terms, &data, &wrong);
            }
        }
    }
}

/// The checksum decides before the pad does.
#[test]
fn another_checksum_and_another_pad_are_refused_with_6() {
    let mut inputs = Inputs::new(245);
    for terms in TokenTerms::all(&mut inputs) {
        for sealed in [false, true] {
            let wrap = Wrap::new(&mut inputs, sealed, 20);
            for last in [0x00, 0x02, 0xff] {
                let mut wrong = terms.wrap_cksum(&wrap, last);
                wrong[3] ^= 0x10;
                check_wrap(&terms, &wrap, last, &wrong);
                check_wrap(&terms, &wrap, last, &terms.wrap_cksum(&wrap, PAD));
            }
        }
    }
}
