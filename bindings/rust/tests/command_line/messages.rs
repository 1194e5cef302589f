//! `krbtoken encrypt`, `decrypt` and `checksum`, compared with the reference
//! implementation.

use reference::printed::{decrypted, digits, hexadecimal};
use reference::{checksum, Terms, HEADER, USAGES};
use support::{AllTerms, Inputs};

use crate::command::{message_words, run, Scratch};

const LENS: [usize; 5] = [0, 1, 5, 300, 32_768];

/// The message is written, and what was written is decrypted.
fn check_message(scratch: &Scratch, terms: &Terms, confounder: &[u8; 8], data: &[u8]) {
    let what = (terms.name(), data.len());
    let message = terms.encrypt(confounder, data);
    let rest = [&hexadecimal(confounder)[..]];
    let written = run(&message_words(scratch, "encrypt", terms, &rest), data);
    written.must_print(&message, what);

    let plain = terms.decrypt(&message).unwrap();
    let words = message_words(scratch, "decrypt", terms, &[]);
    run(&words, &written.stdout).must_print(decrypted(&plain[8..]), what);
}

fn check_checksum(scratch: &Scratch, key: &[u8; 16], usage: u32, data: &[u8]) {
    let words = ["checksum", &scratch.key(key), &usage.to_string()];
    let expected = digits(&checksum(key, usage, data));
    run(&words, data).must_print(expected, (usage, data.len()));
}

#[test]
fn messages_of_every_usage_and_strength_are_encrypted_and_decrypted() {
    let (scratch, mut inputs) = (Scratch::new(), Inputs::new(611));
    for (i, terms) in Terms::all(&mut inputs).iter().enumerate() {
        let (confounder, len) = (inputs.array(), 7 * i);
        check_message(&scratch, terms, &confounder, &inputs.octets(len));
    }
}

#[test]
fn messages_of_every_length_are_encrypted_and_decrypted() {
    let (scratch, mut inputs) = (Scratch::new(), Inputs::new(612));
    for export in [false, true] {
        for len in LENS {
            let usage = inputs.number(1, 15) as u32;
            let key = inputs.array();
            let terms = Terms { key, export, usage };
            let confounder = inputs.array();
            check_message(&scratch, &terms, &confounder, &inputs.octets(len));
        }
    }
}

#[test]
fn checksums_of_every_usage_and_length_are_the_references() {
    let (scratch, mut inputs) = (Scratch::new(), Inputs::new(613));
    for usage in USAGES {
        check_checksum(&scratch, &inputs.array(), usage, &inputs.octets(33));
    }
    for len in LENS {
        check_checksum(&scratch, &inputs.array(), 6, &inputs.octets(len));
    }
}

/// Usages 3, 8 and 9 share a message type, and so open each other's messages.
#[test]
fn a_message_is_decrypted_with_another_usage_only_of_its_type() {
    let (scratch, mut inputs) = (Scratch::new(), Inputs::new(614));
    let key = inputs.array();
    let [written, data] = [8, 9].map(|usage| Terms {
        key,
        export: false,
        usage,
    });
    let message = written.encrypt(&inputs.array(), b"bisque");
    for usage in USAGES {
        let terms = Terms { usage, ..data };
        let run = run(&message_words(&scratch, "decrypt", &terms, &[]), &message);
        match usage {
            3 | 8 | 9 => run.must_print(decrypted(b"bisque"), usage),
            _ => run.must_refuse(6, usage),
        }
    }
}

#[test]
fn a_message_with_any_octet_changed_is_refused() {
    let (scratch, mut inputs) = (Scratch::new(), Inputs::new(615));
    for export in [false, true] {
        let key = inputs.array();
        let terms = Terms {
            key,
            export,
            usage: 13,
        };
        let message = terms.encrypt(&inputs.array(), b"raku");
        let words = message_words(&scratch, "decrypt", &terms, &[]);
        for place in 0..HEADER + 4 {
            let mut damaged = message.clone();
            damaged[place] ^= 1 << inputs.number(0, 7);
            run(&words, &damaged).must_refuse(6, (export, place));
        }
    }
}
