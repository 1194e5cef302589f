//! Tokens with one step as RFC 4757, section 7, prints it where tokens are sent
//! otherwise, or with something near to it: that step alone has them refused.

use std::ops::Range;

use reference::{
    hmac_md5, rc4, Reading, TokenTerms, Wrap, MIC_HEADER, MIC_MESSAGE_TYPE, PAD, WRAP_MESSAGE_TYPE,
};
use support::programs::{LIBRARY, REFERENCE};
use support::{calls, AllTerms, Inputs, MustBe, RandomWrap};

const SEQUENCE: u32 = 0x0102_0304;

struct Steps {
    mic_type: u32,
    wrap_type: u32,
    /// The initiator's and the acceptor's.
    directions: [u8; 2],
    /// The octets that become AB for export.
    kseq_fill: Range<usize>,
    kcrypt_fill: Range<usize>,
}

const SENT: Steps = Steps {
    mic_type: 15,
    wrap_type: 13,
    directions: [0x00, 0xff],
    kseq_fill: 7..16,
    kcrypt_fill: 7..16,
};

const PRINTED: Steps = Steps {
    mic_type: 15,
    wrap_type: 15,
    directions: [0xff, 0x00],
    kseq_fill: 7..14,
    kcrypt_fill: 7..14,
};

/// The printed one, and others: one octet more or fewer at either end, none.
const OTHER_FILLS: [Range<usize>; 6] = [PRINTED.kseq_fill, 7..15, 6..16, 8..16, 6..15, 0..0];

fn salted(terms: &TokenTerms, key: &[u8; 16], fill: &Range<usize>) -> [u8; 16] {
    if !terms.export {
        return hmac_md5(key, &[0; 4]);
    }
    let mut salted = hmac_md5(key, b"fortybits\0\0\0\0\0");
    salted[fill.clone()].fill(0xab);
    salted
}

impl Steps {
    fn first_24(&self, terms: &TokenTerms, header: &[u8; 8], sgn_cksum: &[u8; 8]) -> Vec<u8> {
        let kseq = hmac_md5(&salted(terms, &terms.key, &self.kseq_fill), sgn_cksum);
        let direction = self.directions[usize::from(terms.acceptor)];
        let plain = [SEQUENCE.to_be_bytes(), [direction; 4]].concat();
        [&header[..], &rc4(&kseq, &plain), sgn_cksum].concat()
    }

    fn mic(&self, terms: &TokenTerms, data: &[u8]) -> Vec<u8> {
        let sgn_cksum = terms.sgn_cksum(self.mic_type, &MIC_HEADER, data);
        self.first_24(terms, &MIC_HEADER, &sgn_cksum)
    }

    fn wrap(&self, terms: &TokenTerms, wrap: &Wrap) -> Vec<u8> {
        let (header, plain) = (wrap.header(), wrap.plain(PAD));
        let sgn_cksum = terms.sgn_cksum(self.wrap_type, &header, &plain);
        let front = self.first_24(terms, &header, &sgn_cksum);
        if !wrap.sealed {
            return [front, plain].concat();
        }
        let klocal = terms.key.map(|octet| octet ^ 0xf0);
        let salted = salted(terms, &klocal, &self.kcrypt_fill);
        let kcrypt = hmac_md5(&salted, &SEQUENCE.to_be_bytes());
        [front, rc4(&kcrypt, &plain)].concat()
    }
}

/// The refusals, or 0, of a MIC, a clear token and a sealed one, by the reference
/// implementation and by the library. With 0 the step is none of the token's.
#[track_caller]
fn check(inputs: &mut Inputs, steps: &Steps, numbers: impl Fn(&TokenTerms) -> [u32; 3]) {
    for terms in TokenTerms::all(inputs) {
        let [mic, clear, sealed] = numbers(&terms);
        for len in [0, 20, 300] {
            let data = inputs.octets(len);
            let token = steps.mic(&terms, &data);
            assert_eq!(token == terms.mic(SEQUENCE, &data), mic == 0);
            for program in [REFERENCE, LIBRARY] {
                let reading = (program.mic_read)(&terms, &data, &token, 0, 24);
                check_reading(&reading, mic, &token, (0, SEQUENCE, 0, 0));
            }
            for (is_sealed, number) in [(false, clear), (true, sealed)] {
                let wrap = Wrap {
                    sequence: SEQUENCE,
                    ..Wrap::new(inputs, is_sealed, len)
                };
                let token = steps.wrap(&terms, &wrap);
                assert_eq!(token == terms.wrap(&wrap), number == 0);
                for program in [REFERENCE, LIBRARY] {
                    let reading = (program.wrap_open)(&terms, &token, 0, token.len());
                    check_reading(
                        &reading,
                        number,
                        &token,
                        (0, SEQUENCE, is_sealed.into(), len),
                    );
                }
            }
        }
    }
}

#[track_caller]
fn check_reading(reading: &Reading, number: u32, token: &[u8], answer: (u32, u32, u32, usize)) {
    match number {
        0 => assert_eq!(reading.answer(), answer),
        _ => reading.must_be(&Reading::refused(number, token), number),
    }
}

#[test]
fn tokens_by_the_steps_as_sent_are_taken() {
    assert_eq!((MIC_MESSAGE_TYPE, WRAP_MESSAGE_TYPE), (15, 13));
    check(&mut Inputs::new(481), &SENT, |_| [0; 3]);
}

#[test]
fn tokens_by_the_printed_steps_are_refused_with_5() {
    check(&mut Inputs::new(482), &PRINTED, |_| [5; 3]);
}

#[test]
fn a_wrap_checksum_that_begins_with_other_than_13_is_refused_with_6() {
    for wrap_type in [PRINTED.wrap_type, 0, 12, 14] {
        let steps = Steps { wrap_type, ..SENT };
        check(&mut Inputs::new(483), &steps, |_| [0, 6, 6]);
    }
}

#[test]
fn a_mic_checksum_that_begins_with_other_than_15_is_refused_with_6() {
    for mic_type in [SENT.wrap_type, 0, 14, 16] {
        let steps = Steps { mic_type, ..SENT };
        check(&mut Inputs::new(484), &steps, |_| [6, 0, 0]);
    }
}

#[test]
fn direction_octets_other_than_the_senders_are_refused_with_5() {
    for direction in 0..=255 {
        let steps = Steps {
            directions: [direction; 2],
            ..SENT
        };
        check(&mut Inputs::new(485), &steps, |terms| {
            let right = if terms.acceptor { 0xff } else { 0x00 };
            [if direction == right { 0 } else { 5 }; 3]
        });
    }
}

/// The printed ones are the other sender's.
#[test]
fn tokens_with_the_printed_direction_octets_open_for_the_other_sender() {
    let mut inputs = Inputs::new(486);
    let steps = Steps {
        directions: PRINTED.directions,
        ..SENT
    };
    check(&mut inputs, &steps, |_| [5; 3]);
    for terms in TokenTerms::all(&mut inputs) {
        let acceptor = !terms.acceptor;
        let other = TokenTerms { acceptor, ..terms };
        let mic = steps.mic(&terms, b"kiln");
        assert_eq!(calls::mic_read(&other, b"kiln", &mic, 0, 24).number, 0);
        for sealed in [false, true] {
            let wrap = Wrap {
                sequence: SEQUENCE,
                ..Wrap::new(&mut inputs, sealed, 20)
            };
            let token = steps.wrap(&terms, &wrap);
            assert_eq!(calls::wrap_open(&other, &token, 0, 53).number, 0);
        }
    }
}

#[test]
fn another_fill_of_kseq_is_refused_with_5() {
    for kseq_fill in OTHER_FILLS {
        let steps = Steps { kseq_fill, ..SENT };
        check(&mut Inputs::new(487), &steps, |terms| {
            [if terms.export { 5 } else { 0 }; 3]
        });
    }
}

#[test]
fn another_fill_of_kcrypt_is_refused_with_6() {
    for kcrypt_fill in OTHER_FILLS {
        let steps = Steps {
            kcrypt_fill,
            ..SENT
        };
        check(&mut Inputs::new(488), &steps, |terms| {
            [0, 0, if terms.export { 6 } else { 0 }]
        });
    }
}
