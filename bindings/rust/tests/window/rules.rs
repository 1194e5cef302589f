//! The rules of a receive window one by one: the statuses and the words are
//! written out here, not computed.

use reference::clerk::{DUPLICATE, GAP, IN_ORDER, LATE, OLD, OUTSIDE};
use reference::Words;
use support::calls::{window_bill, window_missing, window_new};

/// First numbers, some of which make the numbers of a session wrap.
const FIRSTS: [u32; 7] = [
    0,
    1,
    1_000,
    0x7fff_ffff,
    0x8000_0000,
    0xffff_fffd,
    0xffff_ffff,
];

const LAST: u32 = 0x7fff_ffff;

/// Bills the numbers at these distances and compares their statuses.
#[track_caller]
fn bill_all(words: &mut Words, steps: &[(u32, u32)]) {
    let first = words[0] as u32;
    for &(distance, expected) in steps {
        let status = window_bill(words, first.wrapping_add(distance));
        assert_eq!(status, expected, "first {first}, distance {distance}");
    }
}

#[test]
fn a_new_window_has_billed_and_misses_nothing() {
    for first in FIRSTS {
        let words = window_new(first);
        assert_eq!(words, [first.into(), 0, 0, 0]);
        assert_eq!(window_missing(&words), 0);
    }
}

#[test]
fn numbers_that_come_in_turn_are_in_order() {
    for first in FIRSTS {
        let mut words = window_new(first);
        for distance in 0..200 {
            bill_all(&mut words, &[(distance, IN_ORDER)]);
            let next = u64::from(distance) + 1;
            let seen = (1_u128 << next.min(64)) - 1;
            assert_eq!(words, [first.into(), next, seen as u64, next]);
            assert_eq!(window_missing(&words), 0);
        }
    }
}

/// How many numbers are left out, what then is missing and the marks.
const GAPS: [(u32, u32, u64); 15] = [
    (1, 1, 0b101),
    (2, 2, 0b1001),
    (31, 31, 1 << 32 | 1),
    (32, 32, 1 << 33 | 1),
    (61, 61, 1 << 62 | 1),
    (62, 62, 1 << 63 | 1),
    (63, 63, 1),
    (64, 63, 1),
    (65, 63, 1),
    (127, 63, 1),
    (256, 63, 1),
    (1_000, 63, 1),
    (65_536, 63, 1),
    (1 << 24, 63, 1),
    (LAST - 1, 63, 1),
];

#[test]
fn a_gap_is_billed_and_leaves_out_what_was_skipped() {
    for first in FIRSTS {
        for (skipped, missing, seen) in GAPS {
            let mut words = window_new(first);
            bill_all(&mut words, &[(0, IN_ORDER), (1 + skipped, GAP)]);
            let next = u64::from(skipped) + 2;
            assert_eq!(words, [first.into(), next, seen, 2], "{skipped}");
            assert_eq!(window_missing(&words), missing, "{skipped}");
        }
    }
}

#[test]
fn a_gap_at_the_start_misses_all_so_far_if_they_are_fewer_than_64() {
    for (distance, missing) in [(1, 1), (2, 2), (62, 62), (63, 63), (64, 63), (100, 63)] {
        let mut words = window_new(7);
        bill_all(&mut words, &[(distance, GAP)]);
        assert_eq!(words, [7, u64::from(distance) + 1, 1, 1]);
        assert_eq!(window_missing(&words), missing, "{distance}");
    }
}

#[test]
fn sixty_four_below_is_late_and_sixty_five_below_is_old() {
    for first in FIRSTS {
        for highest in [64, 65, 100, 1_000, LAST] {
            let mut words = window_new(first);
            bill_all(&mut words, &[(highest, GAP)]);
            let next = highest + 1;
            bill_all(&mut words, &[(next - 65, OLD), (next - 64, LATE)]);
            assert_eq!(words, [first.into(), next.into(), 1 << 63 | 1, 2]);
            bill_all(&mut words, &[(next - 65, OLD), (next - 64, DUPLICATE)]);
            bill_all(&mut words, &[(next - 2, LATE), (next - 63, LATE)]);
            let seen = 0b11 << 62 | 0b11;
            assert_eq!(words, [first.into(), next.into(), seen, 4]);
            assert_eq!(window_missing(&words), 60);
        }
    }
}

#[test]
fn a_number_is_a_duplicate_until_it_is_old() {
    for first in FIRSTS {
        let mut words = window_new(first);
        bill_all(&mut words, &[(0, IN_ORDER)]);
        for distance in 1..64 {
            bill_all(&mut words, &[(0, DUPLICATE), (distance, IN_ORDER)]);
        }
        bill_all(&mut words, &[(0, DUPLICATE), (64, IN_ORDER), (0, OLD)]);
        assert_eq!(words, [first.into(), 65, u64::MAX, 65]);
    }
}

/// The 63 numbers that a gap skipped, from below, from above and from the
/// middle.
#[test]
fn all_that_is_missing_can_come_late() {
    let orders: [fn(u32) -> u32; 3] = [|i| i, |i| 62 - i, |i| (i * 20 + 31) % 63];
    for first in FIRSTS {
        for order in orders {
            let mut words = window_new(first);
            bill_all(&mut words, &[(1_000, GAP)]);
            for i in 0..63 {
                assert_eq!(window_missing(&words), 63 - i);
                let distance = 937 + order(i);
                bill_all(&mut words, &[(distance, LATE), (distance, DUPLICATE)]);
            }
            assert_eq!(words, [first.into(), 1_001, u64::MAX, 64]);
            assert_eq!(window_missing(&words), 0);
            bill_all(
                &mut words,
                &[(936, OLD), (937, DUPLICATE), (1_001, IN_ORDER)],
            );
        }
    }
}

#[test]
fn a_distance_of_2_31_or_more_is_outside() {
    for first in FIRSTS {
        let mut words = window_new(first);
        for steps in [&[][..], &[(0, IN_ORDER)], &[(9, GAP), (3, LATE)]] {
            bill_all(&mut words, steps);
            let before = words;
            for distance in [1 << 31, (1 << 31) + 1, 3 << 30, u32::MAX - 1, u32::MAX] {
                bill_all(&mut words, &[(distance, OUTSIDE)]);
                assert_eq!(words, before, "{distance}");
            }
        }
        let below = &mut words.clone();
        bill_all(below, &[(LAST - 1, GAP), (LAST, IN_ORDER)]);
        bill_all(&mut words, &[(LAST, GAP), (LAST - 1, LATE)]);
        assert_eq!((*below, below[3]), (words, 5));
    }
}

/// The next expected number is then outside, for outside is looked at first.
#[test]
fn the_last_distance_ends_a_session() {
    for first in FIRSTS {
        let mut words = window_new(first);
        bill_all(&mut words, &[(LAST - 1, GAP), (LAST, IN_ORDER)]);
        let end = [first.into(), 1 << 31, 0b11, 2];
        assert_eq!(words, end);
        for _ in 0..2 {
            bill_all(&mut words, &[(LAST + 1, OUTSIDE), (LAST + 2, OUTSIDE)]);
            bill_all(&mut words, &[(LAST, DUPLICATE), (LAST - 1, DUPLICATE)]);
            bill_all(&mut words, &[(0, OLD), (LAST - 64, OLD)]);
            assert_eq!(words, end);
        }
        assert_eq!(window_missing(&words), 62);
        bill_all(&mut words, &[(LAST - 63, LATE), (LAST - 63, DUPLICATE)]);
        assert_eq!(words, [first.into(), 1 << 31, 1 << 63 | 0b11, 3]);
    }
}

#[test]
fn numbers_go_on_from_2_32_minus_1_to_0() {
    let mut words = window_new(0xffff_fffd);
    for (sequence, expected) in [
        (0xffff_fffc, OUTSIDE),
        (0xffff_fffd, IN_ORDER),
        (0xffff_fffe, IN_ORDER),
        (0, GAP),
        (0xffff_ffff, LATE),
        (0xffff_ffff, DUPLICATE),
        (1, IN_ORDER),
        (0, DUPLICATE),
        (0x7fff_fffd, OUTSIDE),
        (0x7fff_fffc, GAP),
        (2, OLD),
    ] {
        assert_eq!(window_bill(&mut words, sequence), expected, "{sequence}");
    }
    assert_eq!(words, [0xffff_fffd, 1 << 31, 1, 6]);
}
