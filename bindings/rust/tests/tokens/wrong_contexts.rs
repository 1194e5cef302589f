//! Right tokens under another key, strength or sender than the reader's: SND_SEQ
//! then has other direction octets, which is 5. No octet is changed.

use rc4hmac::Refusal;
use reference::{token_outcomes, Reading, TokenTerms, Wrap};
use support::calls::{self, context};
use support::{must_be_octets, AllTerms, Inputs, MustBe, RandomWrap};

/// The tokens of one writer: a MIC of `data`, a clear token and a sealed one.
struct Tokens {
    data: Vec<u8>,
    mic: Vec<u8>,
    wraps: [Vec<u8>; 2],
}

impl Tokens {
    /// Also that each opens for its writer's terms: the others alone are wrong.
    fn new(inputs: &mut Inputs, writer: &TokenTerms, len: usize) -> Tokens {
        let data = inputs.octets(len);
        let mic = writer.mic(inputs.sequence(), &data);
        let wraps = [false, true].map(|sealed| writer.wrap(&Wrap::new(inputs, sealed, len)));
        assert_eq!(calls::mic_read(writer, &data, &mic, 0, 24).number, 0);
        for token in &wraps {
            assert_eq!(calls::wrap_open(writer, token, 0, token.len()).number, 0);
        }
        Tokens { data, mic, wraps }
    }

    /// The reference implementation returns 5, and so does the library.
    #[track_caller]
    fn check_refused(&self, reader: &TokenTerms, what: impl std::fmt::Debug) {
        let expected = token_outcomes::mic_read(reader, &self.data, &self.mic, 0, 24);
        assert_eq!(expected.number, 5, "{what:?}");
        let reading = calls::mic_read(reader, &self.data, &self.mic, 0, 24);
        reading.must_be(&Reading::refused(5, &self.mic), &what);
        for token in &self.wraps {
            let expected = token_outcomes::wrap_open(reader, token, 0, token.len());
            assert_eq!(expected.number, 5, "{what:?}");
            let reading = calls::wrap_open(reader, token, 0, token.len());
            reading.must_be(&Reading::refused(5, token), &what);
        }
    }
}

#[test]
fn every_wrong_bit_of_the_key_is_found() {
    let mut inputs = Inputs::new(261);
    for terms in TokenTerms::all(&mut inputs) {
        for len in [0, 20] {
            let tokens = Tokens::new(&mut inputs, &terms, len);
            for bit in 0..128 {
                let mut wrong = terms;
                wrong.key[bit / 8] ^= 1 << (bit % 8);
                tokens.check_refused(&wrong, (terms.name(), bit));
            }
        }
    }
}

#[test]
fn another_key_is_found() {
    let mut inputs = Inputs::new(262);
    for terms in TokenTerms::all(&mut inputs) {
        let tokens = Tokens::new(&mut inputs, &terms, 20);
        for key in [[0x00; 16], [0xff; 16], terms.key.map(|octet| octet ^ 0xf0)] {
            tokens.check_refused(&TokenTerms { key, ..terms }, terms.name());
        }
        for _ in 0..200 {
            let key = inputs.array();
            tokens.check_refused(&TokenTerms { key, ..terms }, terms.name());
        }
    }
}

#[test]
fn the_wrong_strength_is_found() {
    let mut inputs = Inputs::new(263);
    for terms in TokenTerms::all(&mut inputs) {
        for len in [0, 1, 20, 300, 32_768] {
            let tokens = Tokens::new(&mut inputs, &terms, len);
            let export = !terms.export;
            tokens.check_refused(&TokenTerms { export, ..terms }, (terms.name(), len));
        }
    }
}

#[test]
fn the_wrong_sender_is_found() {
    let mut inputs = Inputs::new(264);
    for terms in TokenTerms::all(&mut inputs) {
        for len in [0, 1, 20, 300, 32_768] {
            let tokens = Tokens::new(&mut inputs, &terms, len);
            let acceptor = !terms.acceptor;
            tokens.check_refused(&TokenTerms { acceptor, ..terms }, (terms.name(), len));
        }
    }
}

/// Any of the four; all of them changed by ff are the other sender's.
#[test]
fn every_set_of_changed_direction_octets_is_refused_with_5() {
    let mut inputs = Inputs::new(265);
    for terms in TokenTerms::all(&mut inputs) {
        let tokens = Tokens::new(&mut inputs, &terms, 20);
        for set in 1..16_u8 {
            for change in [0x01, 0x80, 0x7f, 0xfe, 0xff] {
                let changed = |token: &[u8]| {
                    let mut token = token.to_vec();
                    for at in (0..4).filter(|at| set >> at & 1 == 1) {
                        token[12 + at] ^= change;
                    }
                    token
                };
                let changed = Tokens {
                    data: tokens.data.clone(),
                    mic: changed(&tokens.mic),
                    wraps: [changed(&tokens.wraps[0]), changed(&tokens.wraps[1])],
                };
                changed.check_refused(&terms, (set, change));
            }
        }
    }
}

#[test]
fn the_safe_functions_refuse_another_context() {
    let mut inputs = Inputs::new(266);
    for terms in TokenTerms::all(&mut inputs) {
        let tokens = Tokens::new(&mut inputs, &terms, 20);
        let (export, acceptor) = (!terms.export, !terms.acceptor);
        for wrong in [
            TokenTerms { export, ..terms },
            TokenTerms { acceptor, ..terms },
            TokenTerms {
                key: inputs.array(),
                ..terms
            },
        ] {
            let context = context(&wrong);
            let answer = rc4hmac::mic_read(&context, &tokens.data, &tokens.mic, 0, 24);
            assert_eq!(answer, Err(Refusal::Direction));
            for token in &tokens.wraps {
                let mut buf = token.clone();
                let answer = rc4hmac::wrap_open(&context, &mut buf, 0, 53);
                assert_eq!(answer, Err(Refusal::Direction));
                must_be_octets(&buf, token, wrong.name());
            }
        }
    }
}
