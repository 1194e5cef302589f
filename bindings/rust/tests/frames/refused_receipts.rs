//! Framed tokens that are refused never reach the window: each refusal of the two
//! calls that receive framed tokens, and their order, 2, then 9, then 1, 4, 5, 6
//! and 7. Window and buffer stay, the status is 0, and so is every number written.

use rc4hmac::{Refusal, Status, Window};
use reference::clerk::{IN_ORDER, LATE};
use reference::{frame, frame_with, long_form, Receipt, TokenTerms, Words, Wrap, PAD};
use support::calls::{context, window_bill};
use support::programs::FRAMED;
use support::{
    fault_sets, first, must_be_octets, refused_mic_tokens, AllTerms, Faults, Inputs, MustBe,
    RandomWrap,
};

/// The refusal number, the buffer, the start and the length.
type Case = (u32, Vec<u8>, usize, usize);

const NAMES: [(u32, Refusal); 7] = [
    (1, Refusal::Length),
    (2, Refusal::Region),
    (4, Refusal::Header),
    (5, Refusal::Direction),
    (6, Refusal::Checksum),
    (7, Refusal::Pad),
    (9, Refusal::Frame),
];

fn refusal(number: u32) -> Refusal {
    NAMES.into_iter().find(|name| name.0 == number).unwrap().1
}

/// With another tag, mechanism or length, or with the length in another form.
fn no_frames(token: &[u8]) -> Vec<Vec<u8>> {
    let whole = frame(token);
    let (lead, number) = (whole.len() - token.len(), token.len() + 11);
    let mut none: Vec<Vec<u8>> = (0..lead)
        .map(|at| {
            let mut framed = whole.clone();
            framed[at] ^= 0x01;
            framed
        })
        .collect();
    let shortest = lead - 12;
    for count in 1..=9 {
        if usize::from(count) + 1 > shortest {
            none.push(frame_with(&long_form(number, count), token));
        }
    }
    none.push(frame_with(&[0x80], token));
    none.push(frame_with(&[0xff], token));
    none.push(token.to_vec());
    none
}

/// Regions that are refused before the token is looked at: past the buffer, also
/// where the sum wraps, and cut off, empty or one octet beside the frame.
fn wrong_regions(len: usize) -> Vec<(u32, usize, usize)> {
    vec![
        (2, 1, len),
        (2, 0, len + 1),
        (2, len + 1, 0),
        (2, usize::MAX, len),
        (2, usize::MAX - len + 1, len),
        (2, 5, usize::MAX - 4),
        (2, 0, usize::MAX),
        (9, 0, 0),
        (9, len, 0),
        (9, 0, 12),
        (9, 0, 13),
        (9, 0, len - 1),
        (9, 1, len - 1),
    ]
}

/// Somewhere in a buffer, and the wrong regions of the right frame.
fn cases(inputs: &mut Inputs, right: &[u8], framed: Vec<(u32, Vec<u8>)>) -> Vec<Case> {
    let regions = wrong_regions(right.len())
        .into_iter()
        .map(|(number, start, len)| (number, right.to_vec(), start, len));
    let tokens = framed.into_iter().map(|(number, framed)| {
        let (buf, start) = inputs.around(&framed);
        (number, buf, start, framed.len())
    });
    regions.chain(tokens).collect()
}

/// Of tokens with this message.
fn refused_wraps(inputs: &mut Inputs, terms: &TokenTerms, wrap: &Wrap) -> Vec<Case> {
    let token = terms.wrap(wrap);
    let changed = |at: usize| {
        let mut token = token.clone();
        token[at] ^= 0x04;
        token
    };
    let (export, acceptor, key) = (!terms.export, !terms.acceptor, inputs.array());
    let long = Wrap {
        message: inputs.octets(32_769),
        ..*wrap
    };
    let tokens = [
        (1, vec![]),
        (1, token[..24].to_vec()),
        (1, token[..32].to_vec()),
        (1, terms.wrap(&long)),
        (4, changed(0)),
        (4, changed(7)),
        (
            4,
            [&terms.mic(wrap.sequence, b"data")[..], &[0; 9]].concat(),
        ),
        (5, changed(12)),
        (5, changed(16)),
        (5, changed(23)),
        (5, TokenTerms { export, ..*terms }.wrap(wrap)),
        (5, TokenTerms { acceptor, ..*terms }.wrap(wrap)),
        (5, TokenTerms { key, ..*terms }.wrap(wrap)),
        (6, changed(24)),
        (6, changed(token.len() - 1)),
        (6, terms.wrap_with(wrap, PAD, &inputs.array())),
        (7, terms.wrap_ending(wrap, 0x00)),
        (7, terms.wrap_ending(wrap, 0x02)),
    ];
    let framed = (tokens.into_iter())
        .map(|(number, token)| (number, frame(&token)))
        .chain(no_frames(&token).into_iter().map(|framed| (9, framed)))
        .collect();
    cases(inputs, &frame(&token), framed)
}

/// Of tokens over the data "data".
fn refused_mics(inputs: &mut Inputs, terms: &TokenTerms, sequence: u32) -> Vec<Case> {
    let token = terms.mic(sequence, b"data");
    let lengths = [
        (1, vec![]),
        (1, token[..23].to_vec()),
        (1, [&token[..], &[0]].concat()),
    ];
    let tokens = refused_mic_tokens(inputs, terms, sequence);
    let framed = (lengths.into_iter().chain(tokens))
        .map(|(number, token)| (number, frame(&token)))
        .chain(no_frames(&token).into_iter().map(|framed| (9, framed)))
        .collect();
    cases(inputs, &frame(&token), framed)
}

#[test]
fn a_refused_framed_wrap_token_leaves_any_window_and_buffer() {
    let mut inputs = Inputs::new(711);
    for terms in TokenTerms::all(&mut inputs) {
        for turn in 0..20 {
            let words = inputs.words();
            let wrap = Wrap {
                sequence: inputs.sequence_near(&words),
                ..Wrap::new(&mut inputs, turn % 2 == 0, [0, 20, 90, 250][turn / 2 % 4])
            };
            for (number, buf, start, length) in refused_wraps(&mut inputs, &terms, &wrap) {
                let receipt = FRAMED.receive_wrap(words, &terms, &buf, start, length);
                receipt.must_be(&Receipt::refused(number, words, &buf), (start, length));
            }
        }
    }
}

#[test]
fn a_refused_framed_mic_token_leaves_any_window() {
    let mut inputs = Inputs::new(712);
    let long = inputs.octets(32_769);
    for terms in TokenTerms::all(&mut inputs) {
        for _ in 0..40 {
            let words = inputs.words();
            let sequence = inputs.sequence_near(&words);
            for (number, buf, start, length) in refused_mics(&mut inputs, &terms, sequence) {
                let receipt = FRAMED.receive_mic(words, &terms, b"data", &buf, start, length);
                receipt.must_be(&Receipt::refused(number, words, &buf), (start, length));
            }
        }
        let (words, framed) = (inputs.words(), frame(&terms.mic(0, &long)));
        let receipt = FRAMED.receive_mic(words, &terms, &long, &framed, 0, 37);
        receipt.must_be(&Receipt::refused(1, words, &framed), "long data");
    }
}

/// A frame around the token, or something that is none.
fn framed(token: &[u8], fault: Option<usize>) -> Vec<u8> {
    match fault {
        None => frame(token),
        Some(turn) => {
            let mut none = no_frames(token);
            none.swap_remove(turn % none.len())
        }
    }
}

/// Starts outside a buffer of 40,000 octets.
const WRONG_STARTS: [usize; 4] = [40_000, 40_001, usize::MAX, usize::MAX - 63];

/// Puts the octets 5 after the buffer's start and returns how many they are.
fn put(buf: &mut [u8], framed: &[u8]) -> usize {
    buf[5..][..framed.len()].copy_from_slice(framed);
    framed.len()
}

/// A window in which 0 and 6 are in order, and one in which they are late.
const WINDOWS: [(Words, u32); 2] = [([0, 6, 0x3f, 6], IN_ORDER), ([0, 9, 0, 0], LATE)];

#[test]
fn every_set_of_faults_of_a_wrap_token_gets_the_first_number_and_no_status() {
    let mut inputs = Inputs::new(713);
    let mut buf = inputs.octets(40_000);
    for terms in TokenTerms::all(&mut inputs) {
        for turn in 0..16 {
            let (words, status) = WINDOWS[turn % 2];
            let wrong_len = [0, 24, 32, 32_802][turn / 2 % 4];
            for set @ [region, no_frame, length, header, direction, checksum, pad] in fault_sets() {
                let sealed = inputs.number(0, 1) == 1;
                let wrap = Wrap {
                    sequence: 6,
                    ..Wrap::new(&mut inputs, sealed, 7)
                };
                let faults = Faults::new([header, direction, checksum, pad]);
                let mut token = faults.wrap(&terms, &wrap);
                if length {
                    token.resize(wrong_len, PAD);
                }
                let len = put(&mut buf, &framed(&token, no_frame.then_some(turn)));
                let start = if region { WRONG_STARTS[turn % 4] } else { 5 };
                let receipt = FRAMED.receive_wrap(words, &terms, &buf, start, len);
                match first([2, 9, 1, 4, 5, 6, 7], set) {
                    0 => {
                        assert_eq!(receipt.reading.answer(), (0, 6, sealed.into(), 7));
                        assert_eq!(receipt.status, status);
                        assert_eq!(receipt.words[3], words[3] + 1);
                    }
                    number => receipt.must_be(&Receipt::refused(number, words, &buf), set),
                }
            }
        }
    }
}

#[test]
fn every_set_of_faults_of_a_mic_token_gets_the_first_number_and_no_status() {
    let mut inputs = Inputs::new(714);
    let (data, mut buf) = (inputs.octets(32_769), inputs.octets(40_000));
    for terms in TokenTerms::all(&mut inputs) {
        for turn in 0..8 {
            let (words, status) = WINDOWS[turn % 2];
            let wrong_len = [0, 23, 25, 150][turn / 2];
            for set @ [region, no_frame, length, long, header, direction, checksum] in fault_sets()
            {
                let data = &data[..if long { 32_769 } else { 30 }];
                let faults = Faults::new([header, direction, checksum, false]);
                let mut token = faults.mic(&terms, data);
                if length {
                    token.resize(wrong_len, 0);
                }
                let len = put(&mut buf, &framed(&token, no_frame.then_some(turn)));
                let start = if region { WRONG_STARTS[turn % 4] } else { 5 };
                let receipt = FRAMED.receive_mic(words, &terms, data, &buf, start, len);
                match first([2, 9, 1, 1, 4, 5, 6], set) {
                    0 => {
                        let answer = (receipt.reading.answer(), receipt.status);
                        assert_eq!(answer, ((0, 6, 0, 0), status));
                        assert_eq!(receipt.words[3], words[3] + 1);
                    }
                    number => receipt.must_be(&Receipt::refused(number, words, &buf), set),
                }
            }
        }
    }
}

/// The number of a refused token is written as 0. No refusal bills that 0, of a
/// token with the number 0 or with another, in windows that would bill it if they
/// were asked to.
#[test]
fn a_refused_framed_token_never_bills_the_number_0() {
    let mut inputs = Inputs::new(715);
    let windows: [Words; 5] = [
        [0, 0, 0, 0],
        [0, 5, 0b01010, 2],
        [u32::MAX.into(), 1, 1, 1],
        [u32::MAX.into(), 64, 1 << 63 | 1, 2],
        [u64::from(u32::MAX) - 9, 3, 0b101, 2],
    ];
    for terms in TokenTerms::all(&mut inputs) {
        for words in windows {
            let mut asked = words;
            assert!([1, 2, 3].contains(&window_bill(&mut asked, 0)), "{words:?}");
            assert_ne!(asked, words);

            for (sequence, sealed) in [(0, true), (0, false), (77, true), (u32::MAX, false)] {
                let wrap = Wrap {
                    sequence,
                    ..Wrap::new(&mut inputs, sealed, 20)
                };
                for (number, buf, start, length) in refused_wraps(&mut inputs, &terms, &wrap) {
                    let receipt = FRAMED.receive.wrap(words, &terms, &buf, start, length);
                    let answer = (receipt.reading.answer(), receipt.status, receipt.words);
                    assert_eq!(answer, ((number, 0, 0, 0), 0, words), "{start}, {length}");
                }
                for (number, buf, start, length) in refused_mics(&mut inputs, &terms, sequence) {
                    let receipt = FRAMED
                        .receive
                        .mic(words, &terms, b"data", &buf, start, length);
                    let answer = (receipt.reading.answer(), receipt.status, receipt.words);
                    assert_eq!(answer, ((number, 0, 0, 0), 0, words), "{start}, {length}");
                }
            }
        }
    }
}

/// By the safe functions: refused as often as it may be, the token that was
/// damaged is billed when it comes whole, 0 among them.
#[test]
fn a_number_is_billed_when_its_framed_token_comes_whole() {
    let mut inputs = Inputs::new(716);
    for terms in TokenTerms::all(&mut inputs) {
        let (context, mut window) = (context(&terms), Window::new(u32::MAX));
        for sequence in [u32::MAX, 0, 1] {
            let before = window.clone();
            let wrap = Wrap {
                sequence,
                ..Wrap::new(&mut inputs, sequence == 0, 20)
            };
            for (number, buf, start, length) in refused_wraps(&mut inputs, &terms, &wrap) {
                let mut lent = buf.clone();
                let answer = window.receive_framed_wrap(&context, &mut lent, start, length);
                assert_eq!(answer, Err(refusal(number)));
                assert_eq!(window, before);
                must_be_octets(&lent, &buf, number);
            }
            for (number, buf, start, length) in refused_mics(&mut inputs, &terms, sequence) {
                let answer = window.receive_framed_mic(&context, b"data", &buf, start, length);
                assert_eq!(answer, Err(refusal(number)));
                assert_eq!(window, before);
            }
            let mut framed = frame(&terms.wrap(&wrap));
            let len = framed.len();
            let received = window.receive_framed_wrap(&context, &mut framed, 0, len);
            let received = received.unwrap();
            assert_eq!(received.opened.sequence, sequence);
            assert_eq!(received.status, Status::InOrder);
            let framed = frame(&terms.mic(sequence, b"data"));
            let received = window.receive_framed_mic(&context, b"data", &framed, 0, 37);
            assert_eq!(received.unwrap().status, Status::Duplicate);
        }
        assert_eq!((window.billed(), window.missing()), (3, 0));
    }
}
