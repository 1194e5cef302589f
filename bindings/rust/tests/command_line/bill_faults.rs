//! `krbtoken bill`: faults of a frame, after which nothing can be told apart, and
//! captures that are cut off.

use reference::printed::billed;
use reference::{frame, frame_with, long_form, TokenTerms, Wrap, MECHANISM};
use support::Inputs;

use crate::command::{check_bill, run, token_words, Scratch};

const TERMS: TokenTerms = TokenTerms {
    key: [0xb4; 16],
    export: true,
    acceptor: false,
};

/// A token in no frame yet.
fn token(sequence: u32, len: usize) -> Vec<u8> {
    TERMS.wrap(&Wrap {
        sequence,
        confounder: [sequence as u8; 8],
        sealed: true,
        message: vec![0x66; len],
    })
}

fn framed(sequence: u32, len: usize) -> Vec<u8> {
    frame(&token(sequence, len))
}

/// The reference implementation ends with the fault at this place.
#[track_caller]
fn check_fault(capture: &[u8], place: usize, what: &str) {
    let (lines, status) = billed(&TERMS, 0, capture);
    let fault =
        format!("at {place} refused 9: not one whole frame; what follows can't be told apart");
    let lines: Vec<&str> = lines.lines().collect();
    assert_eq!((lines[lines.len() - 4], status), (&fault[..], 1), "{what}");
    check_bill(&TERMS, 0, capture, what);
}

/// The faults of a frame around a token that is right.
fn faults() -> Vec<(String, Vec<u8>)> {
    let (short, middle, long) = (token(1, 9), token(1, 100), token(1, 300));
    let number = MECHANISM.len() + short.len();
    let mut faults = Vec::new();
    for tag in [0x00, 0x20, 0x40, 0x61, 0x6e, 0xe0] {
        let mut frame = frame(&short);
        frame[0] = tag;
        faults.push((format!("tag {tag:02x}"), frame));
    }
    for place in 0..MECHANISM.len() {
        let mut frame = frame(&short);
        frame[2 + place] ^= 1 << (place % 8);
        faults.push((format!("octet {place} of the mechanism"), frame));
    }
    for (token, counts) in [(&short, 1..9), (&middle, 2..9), (&long, 3..9)] {
        for count in counts {
            let length = long_form(MECHANISM.len() + token.len(), count);
            let name = format!("{} octets, {count} of them for the length", token.len());
            faults.push((name, frame_with(&length, token)));
        }
    }
    for length in [0, 1, 2, 10] {
        faults.push((format!("length {length}"), frame_with(&[length], &short)));
    }
    for length in [
        &[0x80][..],
        &[0xff],
        &[0xfe],
        &[0x81],
        &[0x82, 0x00],
        &[0x84, 0xff],
    ] {
        faults.push((format!("length {length:02x?}"), frame_with(length, &short)));
    }
    faults.push(("too short".into(), frame_with(&[number as u8 - 1], &short)));
    faults
}

/// Of a frame that is one octet too short the next one's tag is the fault.
fn fault_place(name: &str, frame: &[u8]) -> usize {
    if name == "too short" {
        frame.len() - 1
    } else {
        0
    }
}

#[test]
fn a_fault_of_a_frame_ends_the_bill_wherever_it_stands() {
    let (before, after) = ([framed(0, 5), framed(3, 90)].concat(), framed(2, 5));
    for (name, frame) in faults() {
        let place = fault_place(&name, &frame);
        check_fault(&frame, place, &name);
        check_fault(&[&frame[..], &after].concat(), place, &name);
        let middle = [&before[..], &frame, &after].concat();
        check_fault(&middle, before.len() + place, &name);
    }
}

/// In clear text, what no test computes.
#[test]
fn the_lines_of_a_fault_are_these() {
    let scratch = Scratch::new();
    let capture = [&framed(4, 0)[..], &framed(6, 0), b"\n", &framed(7, 0)].concat();
    let words = token_words(&scratch, "bill", &TERMS, &["4"], false);
    let lines = "at 0 sequence 4 in order length 0\n\
                 at 46 sequence 6 gap length 0\n\
                 at 92 refused 9: not one whole frame; what follows can't be told apart\n\
                 billed 2\nmissing 1\nrefused 1\n";
    run(&words, &capture).must_be(1, lines.as_bytes(), "", "a newline between frames");
    let lines = "at 0 refused 9: not one whole frame; what follows can't be told apart\n\
                 billed 0\nmissing 0\nrefused 1\n";
    run(&words, b"\n").must_be(1, lines.as_bytes(), "", "a newline alone");
}

/// Refused tokens before it count too.
#[test]
fn a_fault_counts_as_one_more_refused() {
    let mut damaged = framed(1, 6);
    damaged[50] ^= 4;
    let capture = [
        framed(0, 6),
        damaged.clone(),
        frame(b"\x02\x01"),
        b"\x60".to_vec(),
    ]
    .concat();
    let place = capture.len() - 1;
    check_fault(&capture, place, "two refused and a fault");
    assert!(billed(&TERMS, 0, &capture).0.ends_with("refused 3\n"));
}

/// At every octet of a short frame, first or after others.
#[test]
fn a_last_frame_that_is_cut_off_anywhere_is_a_fault() {
    let (before, last) = ([framed(0, 2), framed(1, 130)].concat(), framed(2, 7));
    for cut in 1..last.len() {
        let what = format!("cut off after {cut}");
        check_fault(&last[..cut], 0, &what);
        check_fault(&[&before[..], &last[..cut]].concat(), before.len(), &what);
    }
    check_bill(&TERMS, 0, &[before, last].concat(), "not cut off");
}

#[test]
fn a_largest_frame_that_is_cut_off_is_a_fault() {
    let (before, last) = (framed(0, 32_768), framed(1, 32_768));
    let len = last.len();
    assert_eq!(len, 32_816);
    for cut in [
        1,
        2,
        3,
        4,
        14,
        15,
        16,
        46,
        47,
        48,
        4096,
        len / 2,
        len - 2,
        len - 1,
    ] {
        let what = format!("cut off after {cut}");
        check_fault(&last[..cut], 0, &what);
        check_fault(&[&before[..], &last[..cut]].concat(), len, &what);
        check_fault(
            &[&before.repeat(4)[..], &last[..cut]].concat(),
            4 * len,
            &what,
        );
    }
}

/// Each says that more follows than there is, up to the longest that can be said.
#[test]
fn a_length_beyond_the_capture_is_a_fault() {
    let (before, rest) = (framed(0, 1), [&MECHANISM[..], &[0x02; 100_000]].concat());
    for length in [
        &[0x83, 0x01, 0x86, 0xac][..],
        &[0x83, 0x02, 0x00, 0x00],
        &[0x83, 0xff, 0xff, 0xff],
        &[0x84, 0x7f, 0xff, 0xff, 0xff],
        &[0x84, 0x80, 0x00, 0x00, 0x00],
        &[0x84, 0xff, 0xff, 0xff, 0xff],
        &[0x85, 0x01, 0x00, 0x00, 0x00, 0x2c],
        &[0x88, 0x7f, 0xff, 0xff, 0xff, 0xff, 0xff, 0xff, 0xff],
        &[0x88, 0xff, 0xff, 0xff, 0xff, 0xff, 0xff, 0xff, 0xff],
        &[0x88, 0xff, 0xff, 0xff, 0xff, 0xff, 0xff, 0xff, 0xf0],
        &[0x89, 0x01, 0x00, 0x00, 0x00, 0x00, 0x00, 0x00, 0x00, 0x2c],
    ] {
        let capture = [&before[..], &[0x60], length, &rest].concat();
        check_fault(&capture, before.len(), &format!("{length:02x?}"));
    }
    let longest = [&[0x60, 0xff][..], &[0xff; 127], &rest].concat();
    check_fault(&longest, 0, "127 octets of length");
}

/// Well-formed, with a token that no call takes, but no longer than the program's
/// buffer of 131,264 octets: the lead has 16.
#[test]
fn a_whole_frame_with_too_long_a_token_is_refused_and_billing_goes_on() {
    let mut inputs = Inputs::new(661);
    let mut capture = framed(0, 3);
    for (i, len) in [
        32_802, 32_803, 40_000, 65_524, 65_525, 65_536, 100_000, 131_248,
    ]
    .into_iter()
    .enumerate()
    {
        let mut long = token(9, 32_768);
        long.extend(inputs.octets(len - long.len()));
        let part = [frame(&long), framed(1 + i as u32, 8 * i)].concat();
        check_bill(&TERMS, 1 + i as u32, &part, len);
        capture.extend(part);
    }
    assert!(billed(&TERMS, 0, &capture)
        .0
        .ends_with("billed 9\nmissing 0\nrefused 8\n"));
    check_bill(&TERMS, 0, &capture, "one after the other");
}

/// One octet longer than the buffer, it can't be told from one that is cut off.
#[test]
fn a_frame_longer_than_the_buffer_is_a_fault() {
    let scratch = Scratch::new();
    let words = token_words(&scratch, "bill", &TERMS, &["0"], false);
    for before in [&[][..], &framed(0, 3)] {
        let capture = [before, &frame(&[0x55; 131_249]), &framed(1, 4)].concat();
        let place = before.len();
        let first = match place {
            0 => "",
            _ => "at 0 sequence 0 in order length 3\n",
        };
        let lines = format!(
            "{first}at {place} refused 9: not one whole frame; what follows can't be told apart\n\
             billed {}\nmissing 0\nrefused 1\n",
            first.lines().count()
        );
        run(&words, &capture).must_be(1, lines.as_bytes(), "", place);
    }
}

/// Too short for a token, down to nothing.
#[test]
fn a_whole_frame_with_too_short_a_token_is_refused_and_billing_goes_on() {
    let whole = token(0, 0);
    let short = (0..whole.len()).map(|len| frame(&whole[..len]));
    let capture = [short.collect::<Vec<_>>().concat(), frame(&whole)].concat();
    assert!(billed(&TERMS, 0, &capture)
        .0
        .ends_with("billed 1\nmissing 0\nrefused 33\n"));
    check_bill(&TERMS, 0, &capture, "0 to 33 octets");
}
