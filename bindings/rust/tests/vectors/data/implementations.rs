//! Tokens that other implementations wrote, MIT krb5 1.20.1 those of
//! `mit_krb5.txt` and Heimdal 7.8 those of `heimdal.txt`: one a line, and a line
//! that begins with `#` is a comment.

use super::{array, octets};

const MIT_KRB5: &str = include_str!("mit_krb5.txt");
const HEIMDAL: &str = include_str!("heimdal.txt");

#[derive(Clone, Copy, Debug, PartialEq)]
pub enum Kind {
    Mic,
    Sealed,
    Clear,
}

pub struct Token {
    pub export: bool,
    pub acceptor: bool,
    pub kind: Kind,
    pub sequence: u32,
    pub key: [u8; 16],
    /// For a MIC, the data.
    pub message: Vec<u8>,
    /// The token in the frame of RFC 2743, section 3.1.
    pub framed: Vec<u8>,
}

pub fn mit_krb5() -> Vec<Token> {
    tokens(MIT_KRB5)
}

pub fn heimdal() -> Vec<Token> {
    tokens(HEIMDAL)
}

/// In the order of the file.
fn tokens(file: &str) -> Vec<Token> {
    let lines = file.lines().filter(|line| !line.starts_with('#'));
    lines.map(token).collect()
}

fn token(line: &str) -> Token {
    let columns: Vec<&str> = line.split(' ').collect();
    let [strength, sender, kind, sequence, key, message, framed] = columns[..] else {
        panic!("{} columns", columns.len());
    };
    Token {
        export: one_of(strength, [("full", false), ("export", true)]),
        acceptor: one_of(sender, [("initiator", false), ("acceptor", true)]),
        kind: one_of(
            kind,
            [
                ("mic", Kind::Mic),
                ("sealed", Kind::Sealed),
                ("clear", Kind::Clear),
            ],
        ),
        sequence: sequence.parse().expect("a sequence number"),
        key: array(key),
        message: octets(if message == "-" { "" } else { message }),
        framed: octets(framed),
    }
}

fn one_of<T, const N: usize>(word: &str, words: [(&str, T); N]) -> T {
    let mut words = words.into_iter();
    let found = words.find(|(name, _)| *name == word);
    found.unwrap_or_else(|| panic!("{word}")).1
}
