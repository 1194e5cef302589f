//! The four words of a window: what each status does to them, and any contents,
//! also those that no history makes, beside a model of one step.

use reference::clerk::{is_billed, DUPLICATE, GAP, IN_ORDER, LATE, OLD, OUTSIDE, STATUS_NAMES};
use reference::{window, Words};
use support::calls::{window_bill, window_missing};
use support::{Inputs, HIGH};

const MARKS: u64 = 0x8000_0000_0000_0005;

/// Words, a number, its status and the words afterwards, where it is billed.
const STEPS: [(Words, u32, u32, Words); 10] = [
    ([9, 100, MARKS, 7], 109, IN_ORDER, [9, 101, 0xb, 8]),
    ([9, 100, MARKS, 7], 110, GAP, [9, 102, 0x15, 8]),
    ([9, 100, MARKS, 7], 171, GAP, [9, 163, 1 << 63 | 1, 8]),
    ([9, 100, MARKS, 7], 172, GAP, [9, 164, 1, 8]),
    ([9, 100, MARKS, 7], 173, GAP, [9, 165, 1, 8]),
    ([9, 100, MARKS, 7], 107, LATE, [9, 100, MARKS | 2, 8]),
    ([9, 100, MARKS, 7], 46, LATE, [9, 100, MARKS | 1 << 62, 8]),
    // With the marks of distances below 0, which are of no use.
    ([9, 3, MARKS, 7], 10, LATE, [9, 3, MARKS | 2, 8]),
    ([9, 0, MARKS, 7], 9, IN_ORDER, [9, 1, 0xb, 8]),
    ([9, 1 << 31, 0, 7], 0x8000_0008, LATE, [9, 1 << 31, 1, 8]),
];

/// The same where it is not billed.
const STILL: [(Words, u32, u32); 8] = [
    ([9, 100, MARKS, 7], 108, DUPLICATE),
    ([9, 100, MARKS, 7], 106, DUPLICATE),
    ([9, 100, MARKS, 7], 45, DUPLICATE),
    ([9, 100, MARKS, 7], 44, OLD),
    ([9, 100, MARKS, 7], 9, OLD),
    ([9, 100, MARKS, 7], 8, OUTSIDE),
    ([9, 100, MARKS, 7], 0x8000_0009, OUTSIDE),
    ([9, 1 << 31, MARKS, 7], 0x8000_0009, OUTSIDE),
];

#[test]
fn a_number_that_is_billed_writes_all_words_below_2_32_the_first_two() {
    for (before, sequence, expected, after) in STEPS {
        for (high, other) in HIGH.into_iter().flat_map(|a| HIGH.map(|b| (a, b))) {
            let [first, next, seen, count] = before;
            let mut words = [first | high, next | other, seen, count];
            let status = window_bill(&mut words, sequence);
            assert_eq!((status, words), (expected, after), "{sequence}");
        }
    }
}

#[test]
fn a_number_that_is_not_billed_leaves_all_words_as_they_came() {
    for (before, sequence, expected) in STILL {
        for (high, other) in HIGH.into_iter().flat_map(|a| HIGH.map(|b| (a, b))) {
            let [first, next, seen, count] = before;
            let before = [first | high, next | other, seen, count];
            let mut words = before;
            let status = window_bill(&mut words, sequence);
            assert_eq!((status, words), (expected, before), "{sequence}");
        }
    }
}

#[test]
fn the_count_goes_on_from_2_64_minus_1_to_0() {
    for (before, sequence, expected, after) in STEPS {
        for (count, count_after) in [
            (u64::MAX, 0),
            (u64::MAX - 1, u64::MAX),
            (u32::MAX.into(), 1 << 32),
            (1 << 63, (1 << 63) + 1),
        ] {
            let mut words = [before[0], before[1], before[2], count];
            let status = window_bill(&mut words, sequence);
            let after = [after[0], after[1], after[2], count_after];
            assert_eq!((status, words), (expected, after), "{sequence}");
        }
    }
    for (before, sequence, _) in STILL {
        let mut words = [before[0], before[1], before[2], u64::MAX];
        assert!(!is_billed(window_bill(&mut words, sequence)));
        assert_eq!(words[3], u64::MAX, "{sequence}");
    }
}

/// Where no mark is set, not even the newest: 64 numbers can come late.
#[test]
fn sixty_four_late_numbers_fill_all_marks() {
    for next in [64, 65, 1_000, 1 << 31] {
        let mut words = [3, next, 0, 0];
        for below in 1..=64 {
            assert_eq!(window_missing(&words), 65 - below);
            let sequence = 3 + next as u32 - below;
            assert_eq!(window_bill(&mut words, sequence), LATE);
            assert_eq!(words[2].count_ones(), below);
            assert_eq!(window_bill(&mut words, sequence), DUPLICATE);
        }
        assert_eq!(words, [3, next, u64::MAX, 64]);
        assert_eq!(window_missing(&words), 0);
    }
}

/// What is missing among the marks in use, whatever the others are.
#[test]
fn only_the_marks_in_use_are_missing() {
    for high in HIGH {
        for (next, seen, missing) in [
            (0, 0, 0),
            (0, u64::MAX, 0),
            (1, 0, 1),
            (1, 1, 0),
            (1, !1, 1),
            (5, 0b100_1010, 3),
            (32, !0 << 32, 32),
            (63, 1 << 63, 63),
            (63, u64::MAX, 0),
            (64, 0, 64),
            (64, 1 << 63, 63),
            (64, u64::MAX, 0),
            (65, 0, 64),
            (65, 1 << 63, 63),
            (u32::MAX, 0, 64),
            (u32::MAX, 1 << 32, 63),
            (u32::MAX, u64::MAX, 0),
        ] {
            let words = [high, u64::from(next) | high, seen, 77];
            assert_eq!(window_missing(&words), missing, "{words:?}");
        }
    }
}

#[test]
fn any_words_and_any_number_go_as_the_model_goes() {
    let mut inputs = Inputs::new(420);
    let mut met = [0; 7];
    for _ in 0..200_000 {
        let before = inputs.words();
        let sequence = inputs.sequence_near(&before);
        let mut words = before;
        let status = window_bill(&mut words, sequence);
        let expected = window::bill(before, sequence);
        assert_eq!((status, words), expected, "{before:?}, {sequence}");
        met[status as usize] += 1;
        for words in [before, words] {
            let missing = window_missing(&words);
            assert_eq!(missing, window::missing(words), "{words:?}");
        }
    }
    for (name, times) in STATUS_NAMES.into_iter().zip(met).skip(1) {
        assert!(times > 5_000, "{name}: {times}");
    }
}

/// Runs from windows that no history makes.
#[test]
fn runs_from_any_words_go_as_the_model_goes() {
    let mut inputs = Inputs::new(421);
    for _ in 0..2_000 {
        let mut words = inputs.words();
        let mut expected = words;
        for _ in 0..50 {
            let sequence = inputs.sequence_near(&words);
            let status = window_bill(&mut words, sequence);
            let (expected_status, after) = window::bill(expected, sequence);
            expected = after;
            assert_eq!((status, words), (expected_status, expected));
            assert_eq!(window_missing(&words), window::missing(expected));
        }
    }
}
