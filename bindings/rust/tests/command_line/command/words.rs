//! The words of a call.

use reference::{Terms, TokenTerms};

use super::Scratch;

fn strings(words: &[&str]) -> Vec<String> {
    words.iter().map(|word| word.to_string()).collect()
}

/// Of a verb for tokens, with what stands after the sender.
pub fn token_words(
    scratch: &Scratch,
    verb: &str,
    terms: &TokenTerms,
    rest: &[&str],
    framed: bool,
) -> Vec<String> {
    let key = scratch.key(&terms.key);
    let (strength, sender) = terms.name();
    let last: &[&str] = if framed { &["framed"] } else { &[] };
    strings(&[&[verb, &key, strength, sender], rest, last].concat())
}

/// Of a verb for encrypted messages, with what stands after the usage.
pub fn message_words(scratch: &Scratch, verb: &str, terms: &Terms, rest: &[&str]) -> Vec<String> {
    let key = scratch.key(&terms.key);
    let (strength, usage) = terms.name();
    strings(&[&[verb, &key, strength, &usage.to_string()], rest].concat())
}
