//! `krbtoken bill`: every status and every refusal of a token in a capture.

use reference::{frame, TokenTerms, Wrap};
use support::{fault_sets, AllTerms, Faults, Inputs, RandomWrap};

use crate::command::{check_bill, run, Scratch};

const TERMS: TokenTerms = TokenTerms {
    key: [0x4b; 16],
    export: false,
    acceptor: false,
};

/// Framed, with a message of this length.
fn token(terms: &TokenTerms, sequence: u32, len: usize, sealed: bool) -> Vec<u8> {
    frame(&terms.wrap(&Wrap {
        sequence,
        confounder: [sequence as u8; 8],
        sealed,
        message: vec![0x6b; len],
    }))
}

/// Sealed tokens without a message, 46 octets each.
fn empty_tokens(numbers: &[u32]) -> Vec<u8> {
    let token = |&number| token(&TERMS, number, 0, true);
    numbers.iter().flat_map(token).collect()
}

/// All that is printed, in clear text, what no test computes.
#[track_caller]
fn check_lines(first: &str, capture: &[u8], lines: &[&str]) {
    let scratch = Scratch::new();
    let words = ["bill", &scratch.key(&TERMS.key), "full", "initiator", first];
    let lines: String = lines.iter().map(|line| format!("{line}\n")).collect();
    run(&words, capture).must_print(lines, first);
}

#[test]
fn an_empty_capture_has_only_its_totals() {
    for first in ["0", "7", "4294967295"] {
        check_lines(first, b"", &["billed 0", "missing 0", "refused 0"]);
    }
}

#[test]
fn every_status_has_its_words() {
    let numbers = [
        10,
        11,
        14,
        13,
        13,
        80,
        14,
        15,
        16,
        9,
        2_147_483_658,
        2_147_483_657,
    ];
    check_lines(
        "10",
        &empty_tokens(&numbers),
        &[
            "at 0 sequence 10 in order length 0",
            "at 46 sequence 11 in order length 0",
            "at 92 sequence 14 gap length 0",
            "at 138 sequence 13 late length 0",
            "at 184 sequence 13 duplicate length 0",
            "at 230 sequence 80 gap length 0",
            "at 276 sequence 14 old length 0",
            "at 322 sequence 15 old length 0",
            "at 368 sequence 16 old length 0",
            "at 414 sequence 9 outside length 0",
            "at 460 sequence 2147483658 outside length 0",
            "at 506 sequence 2147483657 gap length 0",
            "billed 6",
            "missing 63",
            "refused 0",
        ],
    );
}

/// Sixty-four below the next expected is the last that is late.
#[test]
fn the_window_has_sixty_four_places() {
    check_lines(
        "0",
        &empty_tokens(&[0, 65, 2, 1, 2, 1, 0]),
        &[
            "at 0 sequence 0 in order length 0",
            "at 46 sequence 65 gap length 0",
            "at 92 sequence 2 late length 0",
            "at 138 sequence 1 old length 0",
            "at 184 sequence 2 duplicate length 0",
            "at 230 sequence 1 old length 0",
            "at 276 sequence 0 old length 0",
            "billed 3",
            "missing 62",
            "refused 0",
        ],
    );
}

#[test]
fn a_clear_token_is_named_so_and_places_count_octets() {
    let capture = [
        token(&TERMS, u32::MAX, 83, true),
        token(&TERMS, 0, 84, false),
        token(&TERMS, 2, 0, false),
        token(&TERMS, 0, 212, false),
        token(&TERMS, 1, 32_768, true),
    ];
    check_lines(
        "4294967295",
        &capture.concat(),
        &[
            "at 0 sequence 4294967295 in order length 83",
            "at 129 sequence 0 in order length 84 clear",
            "at 260 sequence 2 gap length 0 clear",
            "at 306 sequence 0 duplicate length 212 clear",
            "at 566 sequence 1 late length 32768",
            "billed 4",
            "missing 0",
            "refused 0",
        ],
    );
}

/// A frame that is whole, with a token that is not right, does not end a bill.
#[test]
fn every_refusal_of_a_token_is_told_and_billing_goes_on() {
    let wrap = Wrap {
        sequence: 5,
        confounder: [0xcf; 8],
        sealed: true,
        message: vec![],
    };
    let fault = |faults| frame(&Faults::new(faults).wrap(&TERMS, &wrap));
    let capture = [
        frame(b""),
        frame(&TERMS.mic(5, b"")),
        fault([true, false, false, false]),
        fault([false, true, false, false]),
        fault([false, false, true, false]),
        fault([false, false, false, true]),
        frame(&TERMS.wrap(&wrap)),
    ];
    check_lines(
        "5",
        &capture.concat(),
        &[
            "at 0 refused 1: a length is outside the limits",
            "at 13 refused 1: a length is outside the limits",
            "at 50 refused 4: the first eight octets are not a header of this kind of token",
            "at 96 refused 5: the direction octets are not those of the expected sender; \
             a wrong key or strength shows so too",
            "at 142 refused 6: the checksum differs",
            "at 188 refused 7: the last octet of the opened token is not 01",
            "at 234 sequence 5 in order length 0",
            "billed 1",
            "missing 0",
            "refused 6",
        ],
    );
}

/// With every set of faults, of both strengths and senders, sealed and clear.
#[test]
fn every_set_of_faults_is_billed_as_the_reference_does() {
    let mut inputs = Inputs::new(651);
    for terms in TokenTerms::all(&mut inputs) {
        let mut capture = Vec::new();
        for (i, faults) in fault_sets::<4>().enumerate() {
            let wrap = Wrap {
                sequence: i as u32,
                ..Wrap::new(&mut inputs, i % 3 > 0, 20 * i)
            };
            capture.extend(frame(&Faults::new(faults).wrap(&terms, &wrap)));
            capture.extend(frame(&terms.wrap(&wrap)));
        }
        check_bill(&terms, 0, &capture, terms.name());
    }
}

#[test]
fn each_octet_of_a_token_changed_is_billed_as_the_reference_does() {
    let mut inputs = Inputs::new(652);
    for terms in TokenTerms::all(&mut inputs) {
        for sealed in [true, false] {
            let whole = token(&terms, 3, 2, sealed);
            let mut capture = whole.clone();
            for place in 13..whole.len() {
                let mut damaged = whole.clone();
                damaged[place] ^= 1 << inputs.number(0, 7);
                capture.extend(damaged);
            }
            check_bill(&terms, 3, &capture, (terms.name(), sealed));
        }
    }
}

#[test]
fn another_key_strength_or_sender_refuses_all_with_5() {
    let mut inputs = Inputs::new(653);
    let [terms, ..] = TokenTerms::all(&mut inputs);
    let capture: Vec<u8> = (0..5).flat_map(|n| token(&terms, n, 30, true)).collect();
    let key = inputs.array();
    for other in [
        TokenTerms { key, ..terms },
        TokenTerms {
            export: true,
            ..terms
        },
        TokenTerms {
            acceptor: true,
            ..terms
        },
    ] {
        check_bill(&other, 0, &capture, other.name());
    }
    check_bill(&terms, 0, &capture, "the right terms");
}

/// Numbers about each first one, in both directions.
#[test]
fn numbers_about_any_first_one_are_billed_as_the_reference_does() {
    let terms = TokenTerms {
        export: true,
        acceptor: true,
        ..TERMS
    };
    for first in [
        0,
        1,
        63,
        64,
        1 << 31,
        (1 << 31) - 1,
        u32::MAX - 64,
        u32::MAX,
    ] {
        let far = [1 << 31, (1 << 31) - 1, (1 << 31) - 64, (1 << 31) - 65];
        let distances = (0..3)
            .chain([2, 70, 5, 6, 7, 6, 69, u32::MAX, 134, 200])
            .chain(far);
        let numbers = distances.map(|distance| first.wrapping_add(distance));
        let capture: Vec<u8> = numbers
            .flat_map(|number| token(&terms, number, 1, true))
            .collect();
        check_bill(&terms, first, &capture, first);
    }
}

/// Far more lines than a buffer for them would hold.
#[test]
fn thousands_of_tokens_have_a_line_each() {
    let mut inputs = Inputs::new(654);
    let mut capture = Vec::new();
    for number in 0..4000 {
        let number = number + inputs.pick(&[0, 0, 0, 1, 2, 30]);
        capture.extend(token(
            &TERMS,
            number,
            inputs.number(0, 9),
            inputs.number(0, 1) == 0,
        ));
    }
    check_bill(&TERMS, 0, &capture, "4,000 tokens");
}
