//! `krbtoken bill` on a pipe that stays open: octets that no frame begins with are
//! refused at once, and the beginning of a frame waits for the rest.

use reference::printed::billed;
use reference::{frame, front, lead, Front, TokenTerms, Wrap};
use support::Inputs;

use crate::command::{token_words, OpenPipe, Run, Scratch};

const TERMS: TokenTerms = TokenTerms {
    key: [0x3c; 16],
    export: false,
    acceptor: false,
};

/// What is printed of a capture that begins with a fault.
const FAULT: &str = "at 0 refused 9: not one whole frame; what follows can't be told apart\n\
                     billed 0\nmissing 0\nrefused 1\n";

fn framed(sequence: u32, len: usize) -> Vec<u8> {
    frame(&TERMS.wrap(&Wrap {
        sequence,
        confounder: [sequence as u8; 8],
        sealed: true,
        message: vec![0x71; len],
    }))
}

/// Bills sessions whose first number is 0, several at once with one key file.
struct Bill {
    words: Vec<String>,
    _scratch: Scratch,
}

impl Bill {
    fn new() -> Bill {
        let scratch = Scratch::new();
        Bill {
            words: token_words(&scratch, "bill", &TERMS, &["0"], false),
            _scratch: scratch,
        }
    }

    /// A pipe that has shown these octets and stays open.
    fn shown(&self, octets: &[u8]) -> OpenPipe {
        let mut pipe = OpenPipe::new(&self.words);
        pipe.write(octets);
        pipe
    }
}

/// What the reference implementation prints of all that came, and its status.
#[track_caller]
fn must_be_billed(run: &Run, capture: &[u8], what: &str) {
    let (lines, status) = billed(&TERMS, 0, capture);
    run.must_be(status, lines.as_bytes(), "", what);
}

/// Octets with which nothing can become a frame, each without the last one the
/// beginning of one.
const NO_FRAMES: [(&str, &[u8]); 18] = [
    ("another tag", &[0x61]),
    ("a newline", b"\n"),
    ("a token without its frame", &[0x02]),
    ("a length of 0", &[0x60, 0x00]),
    ("a length of 5", &[0x60, 0x05]),
    ("a length of 10", &[0x60, 0x0a]),
    ("a length that leaves the end open", &[0x60, 0x80]),
    ("a length that DER does not use", &[0x60, 0xff]),
    ("127 in two octets", &[0x60, 0x81, 0x7f]),
    ("44 in two octets", &[0x60, 0x81, 0x2c]),
    ("a zero before a number of two octets", &[0x60, 0x82, 0x00]),
    ("a zero before a number of three", &[0x60, 0x83, 0x00]),
    ("a zero before a number of nine", &[0x60, 0x89, 0x00]),
    ("no object identifier", &[0x60, 0x2c, 0x05]),
    ("a shorter object identifier", &[0x60, 0x2c, 0x06, 0x08]),
    (
        "another mechanism",
        &[
            0x60, 0x2c, 0x06, 0x09, 0x2a, 0x86, 0x48, 0x86, 0xf7, 0x12, 0x01, 0x02, 0x03,
        ],
    ),
    (
        "another mechanism after 81 80",
        &[0x60, 0x81, 0x80, 0x06, 0x09, 0x2b],
    ),
    (
        "another mechanism after 82 01 00",
        &[0x60, 0x82, 0x01, 0x00, 0x06, 0x09, 0x2a, 0x86, 0x49],
    ),
];

/// In clear text, what no test computes.
#[test]
fn octets_that_no_frame_begins_with_are_refused_while_the_pipe_stays_open() {
    let bill = Bill::new();
    for (name, octets) in NO_FRAMES {
        let run = bill.shown(octets).must_end(name);
        run.must_be(1, FAULT.as_bytes(), "", name);
    }
}

/// The last octet decides: before it the program waits.
#[test]
fn the_octet_that_is_wrong_is_the_one_that_is_refused() {
    let bill = Bill::new();
    let mut pipes: Vec<OpenPipe> = NO_FRAMES
        .iter()
        .map(|(_, octets)| bill.shown(&octets[..octets.len() - 1]))
        .collect();
    OpenPipe::must_all_wait(&mut pipes, "but for the last octet");
    for (mut pipe, (name, octets)) in pipes.into_iter().zip(NO_FRAMES) {
        pipe.write(&octets[octets.len() - 1..]);
        let run = pipe.must_end(name);
        run.must_be(1, FAULT.as_bytes(), "", name);
    }
}

/// Every octet of a lead of each length, changed in some bits, where the reference
/// implementation says that no frame can come of it.
#[test]
fn each_octet_of_a_lead_changed_is_refused_while_the_pipe_stays_open() {
    let (bill, mut inputs) = (Bill::new(), Inputs::new(681));
    let mut tried = 0;
    for token_len in [33, 116, 117, 244, 245, 32_801] {
        let lead = lead(token_len);
        for place in 0..lead.len() {
            for bits in [0x01, 0x80, inputs.number(1, 255) as u8] {
                let mut octets = lead[..=place].to_vec();
                octets[place] ^= bits;
                if front(&octets) == Front::Neither {
                    let name = format!("{octets:02x?}");
                    must_be_billed(&bill.shown(&octets).must_end(&name), &octets, &name);
                    tried += 1;
                }
            }
        }
    }
    assert!(tried > 200, "{tried}");
}

/// The lines of the frames before it, and the totals, are printed too.
#[test]
fn wrong_octets_after_frames_are_refused_while_the_pipe_stays_open() {
    let bill = Bill::new();
    let mut damaged = framed(1, 20);
    damaged[60] ^= 0x40;
    let before = [framed(0, 3), damaged, framed(4, 200), framed(2, 0)].concat();
    for (name, octets) in NO_FRAMES {
        let mut pipe = bill.shown(&before);
        pipe.write(octets);
        let run = pipe.must_end(name);
        must_be_billed(&run, &[&before[..], octets].concat(), name);
        let lines = String::from_utf8_lossy(&run.stdout);
        let totals = "billed 3\nmissing 2\nrefused 2\n";
        assert!(lines.ends_with(totals), "{name}: {lines}");
    }
}

/// Nothing is told of a frame that follows wrong octets.
#[test]
fn a_frame_after_wrong_octets_is_not_billed() {
    let (bill, octets) = (Bill::new(), [&[0x60, 0x05], &framed(0, 9)[..]].concat());
    let run = bill.shown(&octets).must_end("a frame after wrong octets");
    run.must_be(1, FAULT.as_bytes(), "", "a frame after wrong octets");
}

/// A short frame cut off at every octet, and longer ones at and about their leads.
fn beginnings() -> Vec<(Vec<u8>, usize)> {
    let mut cuts = Vec::new();
    let short = framed(1, 2);
    cuts.extend((1..short.len()).map(|cut| (short.clone(), cut)));
    for len in [90, 300, 32_768] {
        let frame = framed(1, len);
        for cut in [2, 3, 4, 5, 14, 15, 16, frame.len() / 2, frame.len() - 1] {
            cuts.push((frame.clone(), cut));
        }
    }
    cuts
}

/// Pipes that have shown a frame of the number 0, with a message of five octets,
/// and then each of these beginnings, and wait.
fn shown_beginnings(bill: &Bill, some: &[(Vec<u8>, usize)]) -> Vec<OpenPipe> {
    let before = framed(0, 5);
    let mut pipes: Vec<OpenPipe> = some
        .iter()
        .map(|(frame, cut)| bill.shown(&[&before[..], &frame[..*cut]].concat()))
        .collect();
    OpenPipe::must_all_wait(&mut pipes, "cut off");
    pipes
}

#[test]
fn the_beginning_of_a_frame_waits_and_is_billed_when_the_rest_comes() {
    let bill = Bill::new();
    for some in beginnings().chunks(25) {
        let mut pipes = shown_beginnings(&bill, some);
        for (pipe, (frame, cut)) in pipes.iter_mut().zip(some) {
            pipe.write(&frame[*cut..]);
        }
        OpenPipe::must_all_wait(&mut pipes, "whole, and more may follow");
        for (pipe, (frame, cut)) in pipes.into_iter().zip(some) {
            let what = format!("{} octets, cut off after {cut}", frame.len());
            let run = pipe.close(&what);
            must_be_billed(&run, &[&framed(0, 5)[..], frame].concat(), &what);
            assert_eq!(run.status, Some(0), "{what}");
        }
    }
}

#[test]
fn an_input_that_ends_inside_a_frame_is_a_fault() {
    let bill = Bill::new();
    let lines = "at 0 sequence 0 in order length 5\n\
                 at 51 refused 9: not one whole frame; what follows can't be told apart\n\
                 billed 1\nmissing 0\nrefused 1\n";
    for some in beginnings().chunks(25) {
        for (pipe, (frame, cut)) in shown_beginnings(&bill, some).into_iter().zip(some) {
            let what = format!("{} octets, cut off after {cut}", frame.len());
            pipe.close(&what).must_be(1, lines.as_bytes(), "", &what);
        }
    }
}

/// A pipe that has shown nothing, or whole frames, waits; its end is no fault.
#[test]
fn a_pipe_without_a_beginning_waits_too() {
    let bill = Bill::new();
    for capture in [
        vec![],
        framed(0, 0),
        [framed(0, 0), framed(1, 400)].concat(),
    ] {
        let mut pipe = bill.shown(&capture);
        pipe.must_wait(capture.len());
        must_be_billed(&pipe.close(capture.len()), &capture, "whole frames");
    }
}

/// The program holds 131,264 octets: with as many of a longer frame there is no
/// room for more, and nothing to wait for.
#[test]
fn a_beginning_that_fills_the_buffer_is_refused_while_the_pipe_stays_open() {
    let (bill, longer) = (Bill::new(), frame(&[0x55; 131_249]));
    assert_eq!(longer.len(), 131_265);
    let run = bill.shown(&longer[..131_264]).must_end("no room for more");
    run.must_be(1, FAULT.as_bytes(), "", "no room for more");
}
