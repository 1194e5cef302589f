//! Captures billed by the program, compared with the reference implementation.

use std::fmt::Debug;

use reference::printed::billed;
use reference::TokenTerms;

use super::{run_in_pieces, token_words, Run, Scratch};

/// The first line that differs is shown, and not all of them.
#[track_caller]
fn must_be_bill(run: &Run, terms: &TokenTerms, first: u32, capture: &[u8], what: impl Debug) {
    let (lines, status) = billed(terms, first, capture);
    let printed = String::from_utf8_lossy(&run.stdout);
    let mut pairs = printed.lines().zip(lines.lines());
    if let Some((printed, line)) = pairs.find(|(printed, line)| printed != line) {
        assert_eq!(printed, line, "{what:?}");
    }
    run.must_be(status, lines.as_bytes(), "", what);
}

/// The whole output is the reference implementation's.
#[track_caller]
pub fn check_bill(terms: &TokenTerms, first: u32, capture: &[u8], what: impl Debug) {
    check_bill_in_pieces(terms, first, &[capture], what);
}

/// The same, of a capture that comes piece by piece.
#[track_caller]
pub fn check_bill_in_pieces(terms: &TokenTerms, first: u32, pieces: &[&[u8]], what: impl Debug) {
    let scratch = Scratch::new();
    let words = token_words(&scratch, "bill", terms, &[&first.to_string()], false);
    let run = run_in_pieces(&words, pieces);
    must_be_bill(&run, terms, first, &pieces.concat(), what);
}
