//! Wrong lengths in frames: in another form than the shortest, cut off, or not
//! ending where the region ends. Only the length is wrong, and it is refused
//! with 9.

use reference::{der_length, frame, frame_with, long_form, TokenTerms, Wrap};
use support::programs::FRAMED;
use support::{AllTerms, Inputs, RandomWrap};

/// Lengths of messages on both sides of each form, and the longest.
const LENS: [usize; 12] = [0, 1, 20, 82, 83, 84, 85, 210, 211, 212, 213, 32_768];

/// The number of the reader that the token is one for.
type Read = fn(&TokenTerms, &[u8]) -> u32;

fn wrap_open(terms: &TokenTerms, region: &[u8]) -> u32 {
    FRAMED.wrap_open(terms, region, 0, region.len()).number
}

fn mic_read(terms: &TokenTerms, region: &[u8]) -> u32 {
    FRAMED
        .mic_read(terms, b"data", region, 0, region.len())
        .number
}

/// A MIC and Wrap tokens of these lengths, each right and with its reader.
fn tokens(inputs: &mut Inputs, terms: &TokenTerms) -> Vec<(Vec<u8>, Read)> {
    let mut tokens = vec![(terms.mic(5, b"data"), mic_read as Read)];
    for len in LENS {
        let wrap = Wrap::new(inputs, len % 2 == 0, len);
        tokens.push((terms.wrap(&wrap), wrap_open));
    }
    tokens
}

/// Every long form, from 81 to ff, of the right number.
#[test]
fn forms_that_are_not_the_shortest_are_refused_with_9() {
    let mut inputs = Inputs::new(541);
    for terms in TokenTerms::all(&mut inputs) {
        for (token, read) in tokens(&mut inputs, &terms) {
            let number = token.len() + 11;
            let shortest = der_length(number);
            assert_eq!(read(&terms, &frame_with(&shortest, &token)), 0);
            for count in 0..=127 {
                let form = long_form(number, count);
                let refused = if form == shortest { 0 } else { 9 };
                let region = frame_with(&form, &token);
                assert_eq!(read(&terms, &region), refused, "{number}, {count}");
            }
            // One octet for a number that needs more.
            if number > 127 {
                let region = frame_with(&[number as u8], &token);
                assert_eq!(read(&terms, &region), 9, "{number}");
            }
        }
    }
}

/// Long forms with octets that are no part of the number.
#[test]
fn leading_octets_are_refused_with_9() {
    let mut inputs = Inputs::new(542);
    for terms in TokenTerms::all(&mut inputs) {
        for (token, read) in tokens(&mut inputs, &terms) {
            let number = token.len() + 11;
            for count in 1..=20 {
                for first in [0x00, 0x01, 0x80, 0xff] {
                    let mut form = long_form(number, count);
                    form[1] = first;
                    let right = form == der_length(number);
                    let region = frame_with(&form, &token);
                    let refused = if right { 0 } else { 9 };
                    assert_eq!(read(&terms, &region), refused, "{form:02x?}");
                }
            }
        }
    }
}

/// 80 leaves the end open, and ff is kept for later: neither is a length here,
/// nor with the two zeros that would end an open one.
#[test]
fn the_forms_80_and_ff_are_refused_with_9() {
    let mut inputs = Inputs::new(543);
    for terms in TokenTerms::all(&mut inputs) {
        for (token, read) in tokens(&mut inputs, &terms) {
            for form in [0x80, 0xff] {
                let region = frame_with(&[form], &token);
                assert_eq!(read(&terms, &region), 9);
                let region = [&region[..], &[0, 0]].concat();
                assert_eq!(read(&terms, &region), 9);
            }
            let region = frame_with(&[0xff; 128], &token);
            assert_eq!(read(&terms, &region), 9);
        }
    }
}

/// In the shortest form of another number: one off, what counts more or less
/// than mechanism and token, what agrees in its low octets, and the extremes.
#[test]
fn lengths_that_end_before_or_after_the_region_are_refused_with_9() {
    let mut inputs = Inputs::new(544);
    for terms in TokenTerms::all(&mut inputs) {
        for (token, read) in tokens(&mut inputs, &terms) {
            let right = token.len() + 11;
            let near = (0..=64).flat_map(|off| [right + off, right.saturating_sub(off)]);
            let low = [8, 15, 16, 24, 31, 32, 48, 63].map(|bit| right + (1 << bit));
            let low_cut = [7, 8, 15].map(|bit| right % (1 << bit));
            let far = (0..64).map(|bit| usize::MAX >> bit);
            let numbers = near.chain(low).chain(low_cut).chain(far);
            for number in numbers.chain(0..=12) {
                let region = frame_with(&der_length(number), &token);
                let refused = if number == right { 0 } else { 9 };
                assert_eq!(read(&terms, &region), refused, "{right}, {number}");
            }
        }
    }
}

/// Of nine octets and more: 2^64 and higher powers of 256, and the right number
/// behind them.
#[test]
fn lengths_over_64_bits_are_refused_with_9() {
    let mut inputs = Inputs::new(545);
    for terms in TokenTerms::all(&mut inputs) {
        for (token, read) in tokens(&mut inputs, &terms) {
            for count in 9..=127 {
                for first in [0x01, 0x80, 0xff] {
                    for number in [0, token.len() + 11, usize::MAX] {
                        let mut form = long_form(number, count);
                        form[1] = first;
                        let region = frame_with(&form, &token);
                        assert_eq!(read(&terms, &region), 9, "{form:02x?}");
                    }
                }
            }
        }
    }
}

/// Whatever octets of a length there are, more are asked for.
#[test]
fn lengths_that_the_end_of_the_region_cuts_off_are_refused_with_9() {
    let mut inputs = Inputs::new(546);
    for terms in TokenTerms::all(&mut inputs) {
        for form in 0x80..=0xff {
            let asked = usize::from(form - 0x80_u8);
            for there in 0..asked {
                for octet in [0x00, 0x01, 0x7f, 0x80, 0xff] {
                    let region = [&[0x60, form], &vec![octet; there][..]].concat();
                    for read in [mic_read as Read, wrap_open] {
                        assert_eq!(read(&terms, &region), 9, "{form}, {there}");
                    }
                }
            }
        }
        for region in [&[][..], &[0x60], &[0x06], &[0x60, 0x0b]] {
            for read in [mic_read as Read, wrap_open] {
                assert_eq!(read(&terms, region), 9, "{region:02x?}");
            }
        }
    }
}

/// A region over 65,535 octets can be a faultless frame, with a length of three
/// octets: its token is too long. In any other form it is no frame.
#[test]
fn longer_lengths_are_frames_whose_token_is_refused_with_1() {
    let mut inputs = Inputs::new(547);
    for terms in TokenTerms::all(&mut inputs) {
        let long = terms.wrap(&Wrap::new(&mut inputs, terms.export, 65_600));
        for (number, first) in [
            (65_534, 0x82),
            (65_535, 0x82),
            (65_536, 0x83),
            (65_537, 0x83),
            (65_600, 0x83),
        ] {
            let token = &long[..number - 11];
            let framed = frame(token);
            assert_eq!(framed[1], first);
            for read in [mic_read as Read, wrap_open] {
                assert_eq!(read(&terms, &framed), 1, "{number}");
                for count in 1..=9 {
                    let form = long_form(number, count);
                    let region = frame_with(&form, token);
                    let refused = if form[0] == first { 1 } else { 9 };
                    assert_eq!(read(&terms, &region), refused, "{number}, {count}");
                }
                for off in [number - 1, number + 1, number % 65_536] {
                    let region = frame_with(&der_length(off), token);
                    let refused = if off == number { 1 } else { 9 };
                    assert_eq!(read(&terms, &region), refused, "{number}, {off}");
                }
            }
        }
    }
}

/// And one of more than 2^24 octets, with a length of four.
#[test]
fn a_length_of_four_octets_is_a_frames_too() {
    let [terms, ..] = TokenTerms::all(&mut Inputs::new(548));
    for (number, first) in [(0xff_ffff, 0x83), (0x100_0000, 0x84)] {
        let token = vec![0; number - 11];
        let (framed, wrong) = (frame(&token), frame_with(&der_length(number - 1), &token));
        assert_eq!(framed[1], first);
        for read in [mic_read as Read, wrap_open] {
            assert_eq!(read(&terms, &framed), 1, "{number}");
            assert_eq!(read(&terms, &wrong), 9, "{number}");
        }
    }
}
