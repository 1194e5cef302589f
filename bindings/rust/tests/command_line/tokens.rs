//! `krbtoken wrap`, `open`, `mic` and `verify`, there and back: what is written
//! is the reference implementation's, octet for octet, and its tokens are read
//! exactly.

use reference::printed::{hexadecimal, opened, verified};
use reference::token_outcomes::{self, Reading};
use reference::{frame, frame_outcomes, TokenTerms, Wrap};
use support::{AllTerms, Inputs, RandomWrap};

use crate::command::{run, token_words, Scratch};

const LENS: [usize; 5] = [0, 1, 5, 300, 32_768];
const FORMS: [bool; 2] = [false, true];

/// About the lengths at which a frame's length has one more octet.
const AROUND: [usize; 6] = [83, 84, 85, 211, 212, 213];

fn form(framed: bool, token: Vec<u8>) -> Vec<u8> {
    if framed {
        frame(&token)
    } else {
        token
    }
}

fn read_wrap(framed: bool, terms: &TokenTerms, token: &[u8]) -> Reading {
    let read = if framed {
        frame_outcomes::wrap_open
    } else {
        token_outcomes::wrap_open
    };
    read(terms, token, 0, token.len())
}

fn read_mic(framed: bool, terms: &TokenTerms, data: &[u8], token: &[u8]) -> Reading {
    let read = if framed {
        frame_outcomes::mic_read
    } else {
        token_outcomes::mic_read
    };
    read(terms, data, token, 0, token.len())
}

/// The token is written, and what was written is opened.
fn check_wrap(scratch: &Scratch, terms: &TokenTerms, wrap: &Wrap, framed: bool) {
    let what = (terms.name(), wrap.sealed, wrap.message.len(), framed);
    let token = form(framed, terms.wrap(wrap));
    let kind = if wrap.sealed { "sealed" } else { "clear" };
    let (sequence, confounder) = (wrap.sequence.to_string(), hexadecimal(&wrap.confounder));
    let rest = [&sequence[..], &confounder, kind];
    let written = run(
        &token_words(scratch, "wrap", terms, &rest, framed),
        &wrap.message,
    );
    written.must_print(&token, what);

    let reading = read_wrap(framed, terms, &token);
    assert_eq!(
        reading.answer(),
        (0, wrap.sequence, wrap.sealed.into(), wrap.message.len())
    );
    let words = token_words(scratch, "open", terms, &[], framed);
    run(&words, &written.stdout).must_print(opened(&reading), what);
}

/// The token is written, and what was written is verified.
fn check_mic(scratch: &Scratch, terms: &TokenTerms, sequence: u32, data: &[u8], framed: bool) {
    let what = (terms.name(), data.len(), framed);
    let token = form(framed, terms.mic(sequence, data));
    let rest = [&sequence.to_string()[..]];
    let written = run(&token_words(scratch, "mic", terms, &rest, framed), data);
    written.must_print(&token, what);

    let reading = read_mic(framed, terms, data, &token);
    assert_eq!(reading.answer(), (0, sequence, 0, 0));
    let path = scratch.file("mic.token", &written.stdout);
    let words = token_words(scratch, "verify", terms, &[&path], framed);
    run(&words, data).must_print(verified(&reading), what);
}

#[test]
fn sealed_and_clear_wrap_tokens_are_written_and_opened() {
    let (scratch, mut inputs) = (Scratch::new(), Inputs::new(601));
    for terms in TokenTerms::all(&mut inputs) {
        for len in LENS {
            for sealed in [true, false] {
                let wrap = Wrap::new(&mut inputs, sealed, len);
                for framed in FORMS {
                    check_wrap(&scratch, &terms, &wrap, framed);
                }
            }
        }
    }
}

#[test]
fn mic_tokens_are_written_and_verified() {
    let (scratch, mut inputs) = (Scratch::new(), Inputs::new(602));
    for terms in TokenTerms::all(&mut inputs) {
        for len in LENS {
            let (sequence, data) = (inputs.sequence(), inputs.octets(len));
            for framed in FORMS {
                check_mic(&scratch, &terms, sequence, &data, framed);
            }
        }
    }
}

#[test]
fn leads_of_every_length_are_written_and_read() {
    let (scratch, mut inputs) = (Scratch::new(), Inputs::new(603));
    let [terms, ..] = TokenTerms::all(&mut inputs);
    for len in AROUND {
        let wrap = Wrap::new(&mut inputs, true, len);
        check_wrap(&scratch, &terms, &wrap, true);
    }
}

/// Octets are octets: none of them ends a message or is left out.
#[test]
fn every_octet_passes_in_a_message_and_in_data() {
    let (scratch, mut inputs) = (Scratch::new(), Inputs::new(604));
    let [terms, ..] = TokenTerms::all(&mut inputs);
    let mut messages: Vec<Vec<u8>> = (0..=255).map(|octet| vec![octet]).collect();
    messages
        .retain(|message| [0x00, 0x04, 0x0a, 0x0d, 0x1a, 0x20, 0x7f, 0xff].contains(&message[0]));
    messages.push((0..=255).collect());
    messages.push((0..=255).rev().collect());
    messages.push(b"firing\n\n".to_vec());
    for message in messages {
        check_mic(&scratch, &terms, 1, &message, false);
        for sealed in [true, false] {
            let wrap = Wrap {
                message: message.clone(),
                ..Wrap::new(&mut inputs, sealed, 0)
            };
            check_wrap(&scratch, &terms, &wrap, true);
        }
    }
}

#[test]
fn numbers_at_both_ends_are_written_and_read() {
    let (scratch, mut inputs) = (Scratch::new(), Inputs::new(605));
    let [.., terms] = TokenTerms::all(&mut inputs);
    for sequence in [0, 1, 9, 10, 1 << 31, u32::MAX - 1, u32::MAX] {
        check_mic(&scratch, &terms, sequence, b"cone 6", true);
        let wrap = Wrap {
            sequence,
            ..Wrap::new(&mut inputs, true, 6)
        };
        check_wrap(&scratch, &terms, &wrap, false);
    }
}

/// Every octet of a token changed, one at a time: refused as the reference
/// implementation refuses it, or read with another number if that is under no
/// checksum.
#[test]
fn a_token_with_any_octet_changed_is_answered_as_the_reference_does() {
    let (scratch, mut inputs) = (Scratch::new(), Inputs::new(606));
    let [terms, ..] = TokenTerms::all(&mut inputs);
    for framed in FORMS {
        for sealed in [true, false] {
            let token = form(framed, terms.wrap(&Wrap::new(&mut inputs, sealed, 3)));
            let words = token_words(&scratch, "open", &terms, &[], framed);
            for place in 0..token.len() {
                let mut damaged = token.clone();
                damaged[place] ^= 1 << inputs.number(0, 7);
                let reading = read_wrap(framed, &terms, &damaged);
                let status = i32::from(reading.number != 0);
                let what = (framed, sealed, place);
                run(&words, &damaged).must_be(status, opened(&reading).as_bytes(), "", what);
            }
        }
    }
}

#[test]
fn a_mic_with_any_octet_changed_is_answered_as_the_reference_does() {
    let (scratch, mut inputs) = (Scratch::new(), Inputs::new(607));
    let [_, terms, ..] = TokenTerms::all(&mut inputs);
    let data = inputs.octets(40);
    for framed in FORMS {
        let token = form(framed, terms.mic(77, &data));
        for place in 0..token.len() {
            let mut damaged = token.clone();
            damaged[place] ^= 1 << inputs.number(0, 7);
            let reading = read_mic(framed, &terms, &data, &damaged);
            let status = i32::from(reading.number != 0);
            let path = scratch.file("mic.token", &damaged);
            let words = token_words(&scratch, "verify", &terms, &[&path], framed);
            let printed = verified(&reading);
            run(&words, &data).must_be(status, printed.as_bytes(), "", (framed, place));
        }
    }
}
