//! Tokens that are opened and billed in one call, without the frame and in it:
//! the outcome of the reference implementation for each, the number that a token
//! presents, and the flags.

use reference::clerk::{DUPLICATE, IN_ORDER, STATUS_NAMES};
use reference::{Receipt, TokenTerms, Words, Wrap};
use support::calls::Flags;
use support::programs::{Form, FORMS};
use support::{AllTerms, Inputs, MustBe, RandomWrap};

/// The whole of a buffer.
#[track_caller]
fn check_wrap(form: &Form, words: Words, terms: &TokenTerms, token: &[u8]) -> Receipt {
    form.receive_wrap(words, terms, token, 0, token.len())
}

#[track_caller]
fn check_mic(form: &Form, words: Words, terms: &TokenTerms, data: &[u8], token: &[u8]) -> Receipt {
    form.receive_mic(words, terms, data, token, 0, token.len())
}

fn some_wrap(inputs: &mut Inputs, sequence: u32, len: usize) -> Wrap {
    let sealed = inputs.number(0, 1) == 1;
    Wrap {
        sequence,
        ..Wrap::new(inputs, sealed, len)
    }
}

/// Also the tokens that are not billed are opened.
#[test]
fn tokens_of_any_number_are_opened_and_billed_in_any_window() {
    let mut inputs = Inputs::new(440);
    for form in FORMS {
        let mut met = [0; 7];
        for terms in TokenTerms::all(&mut inputs) {
            for _ in 0..1_500 {
                let words = inputs.words();
                let sequence = inputs.sequence_near(&words);
                let len = inputs.pick(&[0, 0, 1, 7, 35, 64, 83, 84, 211, 212]);
                let token = form.form(&terms.wrap(&some_wrap(&mut inputs, sequence, len)));
                let (buf, start) = inputs.around(&token);
                let receipt = form.receive_wrap(words, &terms, &buf, start, token.len());
                assert_eq!((receipt.reading.number, receipt.reading.len), (0, len));
                met[receipt.status as usize] += 1;

                let data = inputs.octets(len);
                let token = form.form(&terms.mic(sequence, &data));
                let (buf, start) = inputs.around(&token);
                let receipt = form.receive_mic(words, &terms, &data, &buf, start, token.len());
                assert_eq!(receipt.reading.number, 0);
                met[receipt.status as usize] += 1;
            }
        }
        for (name, times) in STATUS_NAMES.into_iter().zip(met).skip(1) {
            assert!(times > 200, "{name} {}: {times}", form.name);
        }
    }
}

#[test]
fn the_longest_messages_are_opened_and_billed() {
    let mut inputs = Inputs::new(441);
    for (form, terms) in FORMS
        .into_iter()
        .flat_map(|form| TokenTerms::all(&mut Inputs::new(448)).map(|terms| (form, terms)))
    {
        for (len, number) in [(32_767, 0), (32_768, 0), (32_769, 1)] {
            let wrap = some_wrap(&mut inputs, 7, len);
            let token = form.form(&terms.wrap(&wrap));
            let receipt = check_wrap(form, [7, 0, 0, 0], &terms, &token);
            assert_eq!(receipt.reading.number, number);
            let mic = form.form(&terms.mic(7, &wrap.message));
            let receipt = check_mic(form, [7, 0, 0, 0], &terms, &wrap.message, &mic);
            assert_eq!(receipt.reading.number, number);
        }
    }
}

/// Each bit of a token changed: refused and nothing billed, or billed by what
/// it then says. A bit of the frame is always found.
#[test]
fn tokens_with_a_bit_changed_are_refused_or_billed_by_the_number_they_present() {
    let mut inputs = Inputs::new(442);
    let words = [100, 40, 0x5555, 20];
    for form in FORMS {
        for terms in TokenTerms::all(&mut inputs) {
            for (sealed, len) in [(false, 5), (true, 5), (false, 90), (true, 220)] {
                let wrap = Wrap {
                    sequence: 140,
                    ..Wrap::new(&mut inputs, sealed, len)
                };
                let (token, mic) = (terms.wrap(&wrap), terms.mic(140, &wrap.message));
                let (formed, formed_mic) = (form.form(&token), form.form(&mic));
                for (whole, lead, is_mic) in [
                    (&formed, formed.len() - token.len(), false),
                    (&formed_mic, formed_mic.len() - mic.len(), true),
                ] {
                    for bit in 0..8 * whole.len() {
                        let presents = (8 * lead + 64..8 * lead + 96).contains(&bit);
                        let mut changed = whole.clone();
                        changed[bit / 8] ^= 1 << (bit % 8);
                        let receipt = match is_mic {
                            true => check_mic(form, words, &terms, &wrap.message, &changed),
                            false => check_wrap(form, words, &terms, &changed),
                        };
                        let opens = presents && (is_mic || !sealed);
                        assert_eq!(receipt.reading.number == 0, opens, "{bit}");
                        let in_frame = bit < 8 * lead;
                        assert_eq!(receipt.reading.number == 9, in_frame, "{bit}");
                    }
                }
            }
        }
    }
}

/// SND_SEQ is encrypted by a stream: what is added without carry to octets 8 to
/// 11 is added to the number.
fn presenting(token: &[u8], from: u32, to: u32) -> Vec<u8> {
    let mut token = token.to_vec();
    for (octet, added) in token[8..12].iter_mut().zip((from ^ to).to_be_bytes()) {
        *octet ^= added;
    }
    token
}

/// One MIC or clear token is billed under each number put in its octets 8 to
/// 11, once for each; a sealed one only under its own.
#[test]
fn a_token_under_no_checksum_is_billed_once_for_each_number_it_presents() {
    let mut inputs = Inputs::new(443);
    for form in FORMS {
        for terms in TokenTerms::all(&mut inputs) {
            let first = inputs.sequence();
            let mut windows = [[first.into(), 0, 0, 0]; 3];
            let [clear, sealed] = [false, true].map(|sealed| {
                let wrap = Wrap {
                    sequence: first,
                    ..Wrap::new(&mut inputs, sealed, 9)
                };
                terms.wrap(&wrap)
            });
            let mic = terms.mic(first, b"data");
            for (distance, status) in (0..90).flat_map(|d| [(d, IN_ORDER), (d, DUPLICATE)]) {
                let sequence = first.wrapping_add(distance);
                let [mic, clear, sealed] = [&mic, &clear, &sealed]
                    .map(|token| form.form(&presenting(token, first, sequence)));
                let receipts = [
                    check_mic(form, windows[0], &terms, b"data", &mic),
                    check_wrap(form, windows[1], &terms, &clear),
                    check_wrap(form, windows[2], &terms, &sealed),
                ];
                for receipt in &receipts[..2] {
                    let answer = (receipt.reading.sequence, receipt.status);
                    assert_eq!(answer, (sequence, status));
                }
                let answer = (receipts[2].reading.number, receipts[2].status);
                assert_eq!(answer, if distance == 0 { (0, status) } else { (6, 0) });
                windows = receipts.map(|receipt| receipt.words);
            }
            assert_eq!(windows.map(|words| words[3]), [90, 90, 1]);
        }
    }
}

#[test]
fn any_number_but_0_is_yes() {
    let mut inputs = Inputs::new(444);
    let (key, words) = (inputs.array(), [9, 0, 0, 0]);
    for (form, yes) in FORMS
        .into_iter()
        .flat_map(|form| [0, 1, 2, 128, 256, 65_536, 1 << 31, u32::MAX].map(|yes| (form, yes)))
    {
        for (export_strength, acceptor) in [(yes, 0), (0, yes), (yes, 1), (1, yes), (yes, yes)] {
            let (export, is_acceptor) = (export_strength != 0, acceptor != 0);
            let terms = TokenTerms {
                key,
                export,
                acceptor: is_acceptor,
            };
            let flags = Flags {
                export_strength,
                acceptor,
                sealed: 0,
            };
            let mut token = form.form(&terms.wrap(&some_wrap(&mut inputs, 9, 20)));
            let len = token.len();
            let expected = (form.expected_receipts.wrap)(words, &terms, &token, 0, len);
            let receipt = (form.receive).wrap_in_place(words, flags, &key, &mut token, 0, len);
            receipt.must_be(&expected, flags);
            let mic = form.form(&terms.mic(9, b"data"));
            let len = mic.len();
            let receipt = (form.receive).mic_in_place(words, flags, &key, b"data", &mic, 0, len);
            assert_eq!(
                (receipt.reading.answer(), receipt.status),
                ((0, 9, 0, 0), IN_ORDER)
            );
        }
    }
}
