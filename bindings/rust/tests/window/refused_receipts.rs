//! Refused tokens never reach the window: each refusal of the two calls that
//! open and bill leaves window and buffer as they came, and writes zeros.

use rc4hmac::{Refusal, Status, Window};
use reference::clerk::{IN_ORDER, LATE};
use reference::{Receipt, TokenTerms, Wrap, PAD};
use support::calls::{self, context};
use support::{fault_sets, first, refused_mic_tokens, AllTerms, Inputs, MustBe, RandomWrap};

/// The refusal number, the buffer, the start and the length.
type Case = (u32, Vec<u8>, usize, usize);

/// Starts and lengths that are refused before the token is looked at.
const WRONG_WRAP_REGIONS: [(u32, usize, usize); 8] = [
    (1, 0, 0),
    (1, 0, 32),
    (1, 200, 32_802),
    (1, 0, usize::MAX),
    (2, 1, 53),
    (2, 54, 53),
    (2, usize::MAX, 53),
    (2, 0, 54),
];

/// With a token of 53 octets; each fault is put in whatever it is sealed like.
fn refused_wraps(
    inputs: &mut Inputs,
    terms: &TokenTerms,
    sequence: u32,
    sealed: bool,
) -> Vec<Case> {
    let wrap = Wrap {
        sequence,
        ..Wrap::new(inputs, sealed, 20)
    };
    let token = terms.wrap(&wrap);
    let changed = |at: usize| {
        let mut token = token.clone();
        token[at] ^= 0x04;
        token
    };
    let (export, acceptor) = (!terms.export, !terms.acceptor);
    let key = inputs.array();
    let tokens = [
        (4, changed(0)),
        (4, changed(7)),
        (5, changed(12)),
        (5, changed(16)),
        (5, changed(23)),
        (5, TokenTerms { export, ..*terms }.wrap(&wrap)),
        (5, TokenTerms { acceptor, ..*terms }.wrap(&wrap)),
        (5, TokenTerms { key, ..*terms }.wrap(&wrap)),
        (6, changed(24)),
        (6, changed(32)),
        (6, changed(52)),
        (6, terms.wrap_with(&wrap, PAD, &inputs.array())),
        (7, terms.wrap_ending(&wrap, 0x00)),
        (7, terms.wrap_ending(&wrap, 0x02)),
    ];
    let regions =
        WRONG_WRAP_REGIONS.map(|(number, start, len)| (number, token.clone(), start, len));
    let tokens = tokens.map(|(number, token)| {
        let (buf, start) = inputs.around(&token);
        (number, buf, start, 53)
    });
    regions.into_iter().chain(tokens).collect()
}

/// Of tokens over the data "data".
fn refused_mics(inputs: &mut Inputs, terms: &TokenTerms, sequence: u32) -> Vec<Case> {
    let token = terms.mic(sequence, b"data");
    let regions = [
        (1, 0, 23),
        (1, 0, 25),
        (1, 30, 0),
        (2, 1, 24),
        (2, 25, 24),
        (2, usize::MAX - 23, 24),
    ];
    let regions = regions.map(|(number, start, len)| (number, token.clone(), start, len));
    let tokens = refused_mic_tokens(inputs, terms, sequence).map(|(number, token)| {
        let (buf, start) = inputs.around(&token);
        (number, buf, start, 24)
    });
    regions.into_iter().chain(tokens).collect()
}

#[test]
fn a_refused_wrap_token_leaves_any_window() {
    let mut inputs = Inputs::new(430);
    for terms in TokenTerms::all(&mut inputs) {
        for turn in 0..60 {
            let words = inputs.words();
            let sequence = inputs.sequence_near(&words);
            for (number, buf, start, length) in
                refused_wraps(&mut inputs, &terms, sequence, turn % 2 == 0)
            {
                let receipt = calls::receive_wrap(words, &terms, &buf, start, length);
                receipt.must_be(&Receipt::refused(number, words, &buf), (start, length));
            }
        }
    }
}

#[test]
fn a_refused_mic_token_leaves_any_window() {
    let mut inputs = Inputs::new(431);
    let long = inputs.octets(32_769);
    for terms in TokenTerms::all(&mut inputs) {
        for _ in 0..60 {
            let words = inputs.words();
            let sequence = inputs.sequence_near(&words);
            for (number, buf, start, length) in refused_mics(&mut inputs, &terms, sequence) {
                let receipt = calls::receive_mic(words, &terms, b"data", &buf, start, length);
                receipt.must_be(&Receipt::refused(number, words, &buf), (start, length));
            }
        }
        let (words, token) = (inputs.words(), terms.mic(0, &long));
        let receipt = calls::receive_mic(words, &terms, &long, &token, 0, 24);
        receipt.must_be(&Receipt::refused(1, words, &token), "long data");
    }
}

/// Every set of faults; without one the token is billed, in order or late.
#[test]
fn tokens_with_several_faults_get_the_lowest_number_and_no_status() {
    let mut inputs = Inputs::new(432);
    for terms in TokenTerms::all(&mut inputs) {
        for (sealed, words, status) in [(false, [0; 4], IN_ORDER), (true, [0, 8, 0, 0], LATE)] {
            for set @ [length, region, header, direction, checksum, pad] in fault_sets() {
                let wrap = Wrap {
                    sequence: 0,
                    ..Wrap::new(&mut inputs, sealed, 7)
                };
                let acceptor = terms.acceptor != direction;
                let writer = TokenTerms { acceptor, ..terms };
                let last = if pad { 0x02 } else { PAD };
                let mut sgn_cksum = writer.wrap_cksum(&wrap, last);
                sgn_cksum[3] ^= u8::from(checksum);
                let mut token = writer.wrap_with(&wrap, last, &sgn_cksum);
                token[5] ^= u8::from(header);
                let start = if region { 9 } else { 0 };
                let len = if length { 32 } else { 40 };
                let receipt = calls::receive_wrap(words, &terms, &token, start, len);
                match first([1, 2, 4, 5, 6, 7], set) {
                    0 => assert_eq!((receipt.reading.number, receipt.status), (0, status)),
                    number => receipt.must_be(&Receipt::refused(number, words, &token), set),
                }

                let mut sgn_cksum = writer.mic_cksum(b"data");
                sgn_cksum[3] ^= u8::from(checksum);
                let mut token = writer.mic_with(0, &sgn_cksum);
                token[5] ^= u8::from(header);
                let len = if length { 23 } else { 24 };
                let receipt = calls::receive_mic(words, &terms, b"data", &token, start, len);
                match first([1, 2, 4, 5, 6, 0], set) {
                    0 => assert_eq!((receipt.reading.number, receipt.status), (0, status)),
                    number => receipt.must_be(&Receipt::refused(number, words, &token), set),
                }
            }
        }
    }
}

/// By the safe functions: refused as often as it may be, the token that was
/// damaged is billed when it comes whole.
#[test]
fn a_number_is_billed_when_its_token_comes_whole() {
    let mut inputs = Inputs::new(433);
    let names = [
        (1, Refusal::Length),
        (2, Refusal::Region),
        (4, Refusal::Header),
        (5, Refusal::Direction),
        (6, Refusal::Checksum),
        (7, Refusal::Pad),
    ];
    let refusal = |number: u32| names.into_iter().find(|name| name.0 == number).unwrap().1;
    for terms in TokenTerms::all(&mut inputs) {
        let (context, mut window) = (context(&terms), Window::new(u32::MAX));
        for sequence in [u32::MAX, 0, 1] {
            let before = window.clone();
            let sealed = sequence == 0;
            for (number, buf, start, length) in refused_wraps(&mut inputs, &terms, sequence, sealed)
            {
                let mut lent = buf.clone();
                let answer = window.receive_wrap(&context, &mut lent, start, length);
                assert_eq!(answer, Err(refusal(number)));
                assert_eq!((&window, &lent), (&before, &buf));
            }
            for (number, buf, start, length) in refused_mics(&mut inputs, &terms, sequence) {
                let answer = window.receive_mic(&context, b"data", &buf, start, length);
                assert_eq!(answer, Err(refusal(number)));
                assert_eq!(window, before);
            }
            let token = terms.mic(sequence, b"data");
            let received = window
                .receive_mic(&context, b"data", &token, 0, 24)
                .unwrap();
            assert_eq!(received.sequence, sequence);
            assert_eq!(received.status, Status::InOrder);
        }
        assert_eq!((window.billed(), window.missing()), (3, 0));
    }
}
