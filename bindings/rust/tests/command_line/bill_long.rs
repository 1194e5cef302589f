//! `krbtoken bill`: captures that are longer than the program's buffer, which is
//! filled again and again, and captures that come in pieces.

use reference::printed::billed;
use reference::{frame, Clerk, TokenTerms, Wrap};
use support::{AllTerms, Faults, Inputs, RandomWrap};

use crate::command::{check_bill, check_bill_in_pieces};

/// The longest frame of a token, and the program's buffer: four of them.
const LARGEST: usize = 32_816;
const BUFFER: usize = 4 * LARGEST;

const TERMS: TokenTerms = TokenTerms {
    key: [0x2d; 16],
    export: false,
    acceptor: true,
};

/// A frame of this length around a clear token; every length from 260 is one.
fn frame_of(sequence: u32, len: usize) -> Vec<u8> {
    let framed = frame(&TERMS.wrap(&Wrap {
        sequence,
        confounder: [0xee; 8],
        sealed: false,
        message: vec![0x7e; len - 48],
    }));
    assert_eq!(framed.len(), len);
    framed
}

/// Of every size, and often of the largest.
fn message_len(inputs: &mut Inputs) -> usize {
    let largest = inputs.pick(&[0, 40, 250, 5000, 32_768]);
    let any = inputs.number(0, largest);
    inputs.pick(&[any, largest])
}

/// About the next number that the clerk expects.
fn sequence(inputs: &mut Inputs, clerk: &Clerk) -> u32 {
    let next = clerk.next();
    let distance = match inputs.number(0, 15) {
        0 => next + inputs.number(1, 80) as u64,
        1..=5 => next.saturating_sub(inputs.number(1, 80) as u64),
        6 => (1 << 31) + inputs.sequence() as u64 / 2,
        _ => next,
    };
    clerk.at(distance)
}

/// One frame: a token that is right, or with faults, or of a length that no
/// token has.
fn random_frame(inputs: &mut Inputs, terms: &TokenTerms, clerk: &mut Clerk) -> Vec<u8> {
    let (sealed, len) = (inputs.number(0, 3) > 0, message_len(inputs));
    let wrap = Wrap {
        sequence: sequence(inputs, clerk),
        ..Wrap::new(inputs, sealed, len)
    };
    match inputs.number(0, 19) {
        0..=3 => {
            let faults = [0; 4].map(|_| inputs.number(0, 2) == 0);
            frame(&Faults::new(faults).wrap(terms, &wrap))
        }
        4 => {
            let len = inputs.pick(&[0, 1, 24, 32, 32_802, 33_000, 70_000]);
            frame(&inputs.octets(len))
        }
        _ => {
            clerk.bill(wrap.sequence);
            frame(&terms.wrap(&wrap))
        }
    }
}

fn random_capture(inputs: &mut Inputs, terms: &TokenTerms, first: u32, count: usize) -> Vec<u8> {
    let mut clerk = Clerk::new(first);
    let frames = (0..count).map(|_| random_frame(inputs, terms, &mut clerk));
    frames.collect::<Vec<_>>().concat()
}

/// The capture is one that a fault in the program would show in.
fn must_have_everything(lines: &str) {
    for words in [
        " in order ",
        " gap ",
        " late ",
        " duplicate ",
        " old ",
        " outside ",
        " clear\n",
        " length 0",
        " length 32768",
        " refused 1:",
        " refused 4:",
        " refused 5:",
        " refused 6:",
        " refused 7:",
    ] {
        assert!(lines.contains(words), "{words}");
    }
}

#[test]
fn random_captures_are_billed_as_the_reference_does() {
    let mut inputs = Inputs::new(671);
    for (terms, first) in
        TokenTerms::all(&mut inputs)
            .into_iter()
            .zip([0, 77, 1 << 31, u32::MAX - 9])
    {
        let capture = random_capture(&mut inputs, &terms, first, 400);
        assert!(capture.len() > 15 * BUFFER);
        must_have_everything(&billed(&terms, first, &capture).0);
        check_bill(&terms, first, &capture, terms.name());
    }
}

#[test]
fn a_capture_of_the_largest_frames_is_billed() {
    for count in [3, 4, 5, 8, 9, 13] {
        let frames = (0..count).map(|number| frame_of(number, LARGEST));
        let capture = frames.collect::<Vec<_>>().concat();
        check_bill(&TERMS, 0, &capture, count);
    }
}

/// The frames before it end so that one begins `left` octets before the buffer's
/// end: each octet of its lead and of its header is the last, or the first, once.
#[test]
fn a_frame_may_lie_anywhere_across_the_end_of_the_buffer() {
    let largest: Vec<u8> = (0..3)
        .flat_map(|number| frame_of(number, LARGEST))
        .collect();
    let (across, after) = (frame_of(4, 300), frame_of(5, 1000));
    for left in (0..=60).chain([299, 300, 301]) {
        let filling = frame_of(3, LARGEST - left);
        let capture = [&largest, &filling, &across, &after]
            .map(Vec::as_slice)
            .concat();
        check_bill(&TERMS, 0, &capture, left);
        let cut = largest.len() + filling.len() + 200;
        check_bill(&TERMS, 0, &capture[..cut], ("cut off", left));
    }
}

/// The largest frame across the end, so that all but `left` octets are yet to
/// be read.
#[test]
fn a_largest_frame_may_lie_anywhere_across_the_end_of_the_buffer() {
    let largest: Vec<u8> = (0..3)
        .flat_map(|number| frame_of(number, LARGEST))
        .collect();
    let across = frame_of(4, LARGEST);
    for left in [1, 2, 3, 4, 5, 15, 16, 1000, LARGEST / 2, LARGEST - 300] {
        let filling = frame_of(3, LARGEST - left);
        let capture = [&largest, &filling, &across, &across]
            .map(Vec::as_slice)
            .concat();
        check_bill(&TERMS, 0, &capture, left);
    }
}

/// Pieces of these sizes, over and over.
fn pieces<'a>(capture: &'a [u8], sizes: &[usize]) -> Vec<&'a [u8]> {
    let (mut rest, mut pieces) = (capture, Vec::new());
    for size in sizes.iter().cycle() {
        if rest.is_empty() {
            break;
        }
        let (piece, others) = rest.split_at(rest.len().min(*size));
        pieces.push(piece);
        rest = others;
    }
    pieces
}

#[test]
fn a_capture_may_come_octet_by_octet() {
    let mut inputs = Inputs::new(672);
    let capture: Vec<u8> = [0, 2, 1, 2]
        .iter()
        .flat_map(|&sequence| {
            let wrap = Wrap::new(&mut inputs, true, 60);
            frame(&TERMS.wrap(&Wrap { sequence, ..wrap }))
        })
        .collect();
    check_bill_in_pieces(&TERMS, 0, &pieces(&capture, &[1]), "octet by octet");
    let cut_off = &capture[..capture.len() - 1];
    check_bill_in_pieces(&TERMS, 0, &pieces(cut_off, &[1]), "cut off");
}

#[test]
fn a_capture_may_come_in_pieces_of_any_size() {
    let mut inputs = Inputs::new(673);
    let capture = random_capture(&mut inputs, &TERMS, 5, 120);
    assert!(capture.len() > 3 * BUFFER);
    for sizes in [
        &[4095, 1, 7777, 3][..],
        &[1, 2, 13, 14, 15, 46, 20_001],
        &[LARGEST - 1, 2, LARGEST + 1],
        &[65_535, 1, 65_537],
        &[BUFFER - 1, 1],
        &[BUFFER + 1],
    ] {
        check_bill_in_pieces(&TERMS, 5, &pieces(&capture, sizes), sizes);
    }
}

/// Frames as they are sent, each with a pause behind it.
#[test]
fn a_capture_may_come_frame_by_frame() {
    let (mut inputs, mut clerk) = (Inputs::new(674), Clerk::new(9));
    let frames: Vec<Vec<u8>> = (0..150)
        .map(|_| random_frame(&mut inputs, &TERMS, &mut clerk))
        .collect();
    let pieces: Vec<&[u8]> = frames.iter().map(Vec::as_slice).collect();
    check_bill_in_pieces(&TERMS, 9, &pieces, "frame by frame");
}
