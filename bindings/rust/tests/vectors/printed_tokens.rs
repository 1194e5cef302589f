//! The tokens, messages and checksums that the program `refusals` prints,
//! compared with the reference implementation. Its other lines are not read.

use std::fs;

use reference::printed::hexadecimal;
use reference::{checksum, md5, Terms, TokenTerms, Wrap};

const PRINTED: &str = concat!(env!("CARGO_MANIFEST_DIR"), "/../../crates/refusals/stdout");

const SEQUENCE: u32 = 16_909_060;
const STRENGTHS: [(&str, bool); 2] = [("full", false), ("export", true)];
const SENDERS: [(&str, bool); 2] = [("initiator", false), ("acceptor", true)];
const KINDS: [(&str, bool); 2] = [("sealed", true), ("clear", false)];
const LENS: [usize; 2] = [0, 300];

fn key() -> [u8; 16] {
    std::array::from_fn(|i| 17 * i as u8)
}

fn confounder() -> [u8; 8] {
    std::array::from_fn(|i| 0xc0 + i as u8)
}

fn octets(len: usize) -> Vec<u8> {
    (0..len).map(|i| (7 * i + 1) as u8).collect()
}

/// The lines of the tokens of one key, strength and sender.
fn token_lines(name: &str, terms: &TokenTerms) -> Vec<String> {
    let mut lines = Vec::new();
    for len in LENS {
        let token = terms.mic(SEQUENCE, &octets(len));
        lines.push(format!("mic {name} {len}: {}", hexadecimal(&token)));
    }
    for (kind, sealed) in KINDS {
        let wrap = |len| Wrap {
            sequence: SEQUENCE,
            confounder: confounder(),
            sealed,
            message: octets(len),
        };
        for len in LENS {
            let token = terms.wrap(&wrap(len));
            lines.push(format!("wrap {name} {kind} {len}: {}", hexadecimal(&token)));
        }
        let digest = md5(&terms.wrap(&wrap(32_768)));
        let digest = hexadecimal(&digest);
        lines.push(format!("wrap {name} {kind} 32768 md5: {digest}"));
    }
    lines
}

fn message_lines() -> Vec<String> {
    let mut lines = Vec::new();
    for (strength, export) in STRENGTHS {
        for usage in [3, 13] {
            for len in LENS {
                let key = key();
                let terms = Terms { key, export, usage };
                let message = hexadecimal(&terms.encrypt(&confounder(), &octets(len)));
                lines.push(format!("message {strength} {usage} {len}: {message}"));
            }
        }
    }
    lines
}

fn checksum_lines() -> Vec<String> {
    let mut lines = Vec::new();
    for usage in [6, 15] {
        for len in LENS {
            let checksum = hexadecimal(&checksum(&key(), usage, &octets(len)));
            lines.push(format!("checksum {usage} {len}: {checksum}"));
        }
    }
    lines
}

/// Each line is printed once, and none with the same words before its colon.
#[track_caller]
fn check_printed(lines: &[String]) {
    let printed = fs::read_to_string(PRINTED).expect(PRINTED);
    for line in lines {
        let (words, _) = line.split_once(": ").unwrap();
        let found: Vec<&str> = printed
            .lines()
            .filter(|line| {
                line.split_once(':')
                    .is_some_and(|(start, _)| start == words)
            })
            .collect();
        assert_eq!(found, [line], "{words}");
    }
}

#[test]
fn the_printed_tokens_are_the_references() {
    for (strength, export) in STRENGTHS {
        for (sender, acceptor) in SENDERS {
            let terms = TokenTerms {
                key: key(),
                export,
                acceptor,
            };
            check_printed(&token_lines(&format!("{strength} {sender}"), &terms));
        }
    }
}

#[test]
fn the_printed_messages_and_checksums_are_the_references() {
    check_printed(&message_lines());
    check_printed(&checksum_lines());
}
