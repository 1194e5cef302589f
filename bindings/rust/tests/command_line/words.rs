//! Wrong words of `krbtoken`: each kind in each verb, and that the first fault is
//! told, alone.

use crate::command::{calls, run, Call, Scratch, USAGES};

const VERB: &str = "the verb is missing or unknown: expected key, open, wrap, verify, mic, \
                    decrypt, encrypt, checksum, bill or help";
const STRENGTH: &str = "the strength is wrong: expected full or export";
const SENDER: &str = "the sender is wrong: expected initiator or acceptor";
const SEALING: &str = "the word for sealing is wrong: expected sealed or clear";
const LAST: &str = "the last word is wrong: expected framed, or nothing";
const SEQUENCE: &str = "the sequence number is wrong: \
                        expected a whole number from 0 to 4294967295, in decimal";
const USAGE: &str = "the usage is wrong: expected a whole number from 1 to 15, in decimal";
const CONFOUNDER: &str = "the confounder is wrong: expected 16 hexadecimal digits";
const NO_KEY: &str = "the key file can't be read, expected 32 hexadecimal digits: \
                      No such file or directory";
const NO_TOKEN: &str = "the token file can't be read, expected a MIC token: \
                        No such file or directory";
const TOO_LONG: &str = "standard input is too long: expected at most 65536 octets";

/// No decimal number of 32 bits, or none that is written as one.
const NO_NUMBERS: [&str; 24] = [
    "",
    " ",
    "-1",
    "-0",
    "+1",
    "4294967296",
    "4294967297",
    "4294967309",
    "04294967296",
    "9999999999",
    "42949672960",
    "18446744073709551615",
    "18446744073709551616",
    "18446744073709551629",
    "340282366920938463463374607431768211469",
    "1x",
    "x1",
    "0x1",
    "1 ",
    " 1",
    "1.0",
    "1e1",
    "1,000",
    "٣",
];

/// No sixteen hexadecimal digits; some have a neighbour of the digits.
const NO_CONFOUNDERS: [&str; 16] = [
    "",
    "0",
    "001122334455667",
    "00112233445566778",
    "0011223344556677\n",
    " 0011223344556677",
    "00112233445566 7",
    "0x11223344556677",
    "001122334455667g",
    "g011223344556677",
    "001122334455667G",
    "001122334455667/",
    "001122334455667:",
    "001122334455667@",
    "001122334455667`",
    "00112233445566778899aabbccddeeff",
];

/// Each name of a word in a usage, words that are wrong there and what is said.
const WRONG: [(&str, &[&str], &str); 8] = [
    (
        "full|export",
        &[
            "",
            "Full",
            "FULL",
            "ful",
            "fullx",
            "full ",
            " full",
            "exports",
            "expor",
            "0",
            "full|export",
        ],
        STRENGTH,
    ),
    (
        "initiator|acceptor",
        &[
            "",
            "Initiator",
            "initiato",
            "initiators",
            "accepter",
            "acceptor ",
            "1",
            "full",
        ],
        SENDER,
    ),
    (
        "sealed|clear",
        &[
            "", "Sealed", "seal", "sealedx", "clea", "clears", "yes", "framed",
        ],
        SEALING,
    ),
    (
        "[framed]",
        &[
            "Framed", "frame", "framedx", "framed ", "unframed", "0", "sealed",
        ],
        LAST,
    ),
    ("SEQUENCE", &NO_NUMBERS, SEQUENCE),
    ("FIRST", &NO_NUMBERS, SEQUENCE),
    ("USAGE", &NO_NUMBERS, USAGE),
    ("CONFOUNDER", &NO_CONFOUNDERS, CONFOUNDER),
];

/// One wrong word for each name, in its place, and what is said.
const ONE_WRONG: [(&str, &str, &str); 10] = [
    ("KEYFILE", "no such folder/key", NO_KEY),
    ("full|export", "strong", STRENGTH),
    ("initiator|acceptor", "both", SENDER),
    ("SEQUENCE", "first", SEQUENCE),
    ("FIRST", "first", SEQUENCE),
    ("USAGE", "third", USAGE),
    ("CONFOUNDER", "none", CONFOUNDER),
    ("sealed|clear", "open", SEALING),
    ("TOKENFILE", "no such folder/token", NO_TOKEN),
    ("[framed]", "bare", LAST),
];

#[test]
fn other_verbs_are_wrong_use_whatever_follows() {
    for verb in [
        "", " ", "Open", "ope", "opens", "open ", "keys", "ke", "HELP", "--help", "-h", "-",
        "unwrap", "krbtoken", "full",
    ] {
        run(&[verb], b"").must_be_wrong_use(VERB, verb);
        run(&[verb, "key", "full", "initiator"], b"").must_be_wrong_use(VERB, verb);
    }
}

/// From the verb alone to three words too many. All words may be wrong: their
/// number is looked at first.
#[test]
fn every_other_number_of_words_is_wrong_use() {
    for usage in USAGES {
        let names: Vec<&str> = usage.split(' ').skip(1).collect();
        let required = names.iter().filter(|name| !name.starts_with('[')).count();
        let line = format!("the number of words is wrong: expected {usage}");
        for count in (1..required).chain(names.len() + 1..names.len() + 4) {
            let mut words = vec!["?"; count];
            words[0] = names[0];
            run(&words, b"").must_be_wrong_use(&line, (usage, count));
        }
    }
}

#[test]
fn each_wrong_word_of_each_verb_is_wrong_use() {
    let scratch = Scratch::new();
    for call in calls(&scratch) {
        for (name, words, line) in WRONG {
            for word in words {
                if let Some(words) = call.with(name, word) {
                    call.run(&words)
                        .must_be_wrong_use(line, (call.verb(), word));
                }
            }
        }
    }
}

/// The faults that a call can have, from the left.
fn faults(call: &Call) -> Vec<(&'static str, &'static str, &'static str)> {
    let fault = |name| ONE_WRONG.iter().find(|wrong| wrong.0 == name).copied();
    call.names().filter_map(fault).collect()
}

/// A call with these words wrong.
fn with_faults(call: &Call, faults: &[(&str, &str, &str)]) -> Vec<String> {
    let mut words = call.words.clone();
    for (name, word, _) in faults {
        let place = call.names().position(|found| found == *name).unwrap();
        words[place] = word.to_string();
    }
    words
}

#[test]
fn of_two_wrong_words_the_left_one_is_told() {
    let scratch = Scratch::new();
    for call in calls(&scratch) {
        let faults = faults(&call);
        assert_eq!(faults.len() + 1, call.words.len());
        for (i, left) in faults.iter().enumerate() {
            for right in &faults[i + 1..] {
                let words = with_faults(&call, &[*left, *right]);
                let what = (call.verb(), left.0, right.0);
                call.run(&words).must_be_wrong_use(left.2, what);
            }
        }
        if let Some(leftmost) = faults.first() {
            let words = with_faults(&call, &faults);
            call.run(&words).must_be_wrong_use(leftmost.2, call.verb());
        }
    }
}

/// The input is read last, but before the library is called.
#[test]
fn a_wrong_word_is_told_before_a_wrong_input_and_that_before_a_refusal() {
    let scratch = Scratch::new();
    let long = vec![0x61; 65_537];
    for call in calls(&scratch) {
        for fault in faults(&call) {
            let words = with_faults(&call, &[fault]);
            run(&words, &long).must_be_wrong_use(fault.2, (call.verb(), fault.0));
        }
        if let Some(words) = call.with("USAGE", "16") {
            run(&words, &long).must_be_wrong_use(TOO_LONG, call.verb());
            call.run(&words).must_refuse(3, call.verb());
        }
    }
}
