//! Numbers, confounders and sequence numbers of `krbtoken` in all the ways that
//! are taken.

use reference::checksum;
use reference::printed::digits;

use crate::command::{calls, run, Call, Scratch};

/// A call with another word for the same is done alike.
#[track_caller]
fn check_alike(call: &Call, name: &str, word: &str) {
    if let Some(words) = call.with(name, word) {
        call.run(&words)
            .must_print(&call.output, (call.verb(), word));
    }
}

/// The numbers and confounders of the calls, written in other ways.
#[test]
fn zeros_in_front_and_digits_of_both_cases_are_taken() {
    let scratch = Scratch::new();
    let zeros = "0".repeat(300);
    for call in calls(&scratch) {
        let names: Vec<&str> = call.names().collect();
        for name in ["SEQUENCE", "FIRST", "USAGE"] {
            let Some(place) = names.iter().position(|found| *found == name) else {
                continue;
            };
            let number = &call.words[place];
            for front in ["0", "00", "00000000000", &zeros] {
                check_alike(&call, name, &format!("{front}{number}"));
            }
        }
        if let Some(place) = names.iter().position(|found| *found == "CONFOUNDER") {
            let digits = &call.words[place];
            check_alike(&call, "CONFOUNDER", &digits.to_uppercase());
            let mixed = digits[..8].to_uppercase() + &digits[8..];
            check_alike(&call, "CONFOUNDER", &mixed);
        }
    }
}

/// Every digit, in both cases and in every place of an octet.
#[test]
fn every_digit_of_a_confounder_has_its_value() {
    let scratch = Scratch::new();
    let calls = calls(&scratch);
    let encrypt = calls.iter().find(|call| call.verb() == "encrypt").unwrap();
    let terms = reference::Terms {
        key: Call::KEY,
        export: false,
        usage: 13,
    };
    for (word, octets) in [
        ("0123456789abcdef", 0x0123_4567_89ab_cdef_u64),
        ("0123456789ABCDEF", 0x0123_4567_89ab_cdef),
        ("fedcba9876543210", 0xfedc_ba98_7654_3210),
        ("FEDCBA9876543210", 0xfedc_ba98_7654_3210),
        ("aAbBcCdDeEfF0909", 0xaabb_ccdd_eeff_0909),
    ] {
        let message = terms.encrypt(&octets.to_be_bytes(), &encrypt.input);
        let words = encrypt.with("CONFOUNDER", word).unwrap();
        encrypt.run(&words).must_print(message, word);
    }
}

#[test]
fn usages_are_read_as_decimal() {
    let scratch = Scratch::new();
    let key = scratch.key(&Call::KEY);
    for (word, usage) in [
        ("1", 1),
        ("7", 7),
        ("9", 9),
        ("010", 10),
        ("12", 12),
        ("015", 15),
    ] {
        let expected = digits(&checksum(&Call::KEY, usage, b"kiln"));
        run(&["checksum", &key, word], b"kiln").must_print(expected, word);
    }
}
