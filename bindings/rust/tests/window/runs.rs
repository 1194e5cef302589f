//! Long runs of numbers beside a clerk with the whole history: after each number
//! the status, all four words and what is missing.

use std::collections::BTreeSet;

use reference::clerk::{is_billed, STATUS_NAMES};
use reference::{window, Clerk, Words};
use support::calls::{window_bill, window_missing, window_new};
use support::Inputs;

const FIRSTS: [u32; 5] = [0, 5, 1 << 31, (1 << 31) - 40, u32::MAX - 2];

/// Around the end of a session and beyond.
const FAR: [u64; 6] = [
    (1 << 31) - 2,
    (1 << 31) - 1,
    1 << 31,
    (1 << 31) + 1,
    (1 << 32) - 2,
    (1 << 32) - 1,
];

#[derive(Clone)]
struct Run {
    words: Words,
    clerk: Clerk,
    billed: BTreeSet<u32>,
    met: [u32; 7],
}

impl Run {
    fn new(first: u32) -> Run {
        Run {
            words: window_new(first),
            clerk: Clerk::new(first),
            billed: BTreeSet::new(),
            met: [0; 7],
        }
    }

    /// Bills the number at this distance.
    #[track_caller]
    fn step(&mut self, distance: u64) {
        let sequence = self.clerk.at(distance);
        let modelled = window::bill(self.words, sequence);
        let status = window_bill(&mut self.words, sequence);
        let what = (distance, self.clerk.next());
        assert_eq!(status, self.clerk.bill(sequence), "{what:?}");
        assert_eq!(self.words, self.clerk.words(), "{what:?}");
        assert_eq!((status, self.words), modelled, "{what:?}");
        let missing = window_missing(&self.words);
        assert_eq!(missing, self.clerk.missing(), "{what:?}");
        assert_eq!(missing, window::missing(self.words), "{what:?}");

        if is_billed(status) {
            assert!(self.billed.insert(sequence), "billed twice: {what:?}");
        }
        assert_eq!(self.words[3], self.billed.len() as u64, "{what:?}");
        self.met[status as usize] += 1;
    }

    /// Every status came up so often.
    #[track_caller]
    fn has_met(met: [u32; 7], least: u32) {
        for (name, times) in STATUS_NAMES.into_iter().zip(met).skip(1) {
            assert!(times >= least, "{name}: {times}");
        }
    }
}

/// A distance at random in reach of the window: at its edges, in it, above it.
fn near(inputs: &mut Inputs, next: u64) -> u64 {
    match inputs.number(0, 15) {
        0..=3 => next,
        4 => next + inputs.pick(&[1, 2, 61, 62, 63, 64, 65, 66, 1_000]),
        5 => next + inputs.number(1, 5) as u64,
        6 => next.saturating_sub(inputs.pick(&[63, 64, 65, 66])),
        7 => inputs.pick(&FAR[2..]),
        8 => inputs.number(0, 1_000_000) as u64 % (next + 1),
        _ => next.saturating_sub(inputs.number(1, 67) as u64),
    }
}

#[test]
fn long_runs_near_the_window_are_billed_as_the_clerk_bills() {
    let mut met = [0; 7];
    for (number, first) in FIRSTS.into_iter().enumerate() {
        let mut inputs = Inputs::new(400 + number as u64);
        let mut run = Run::new(first);
        for _ in 0..20_000 {
            run.step(near(&mut inputs, run.clerk.next()));
        }
        met = std::array::from_fn(|status| met[status] + run.met[status]);
    }
    Run::has_met(met, 1_000);
}

#[test]
fn short_runs_near_the_window_are_billed_as_the_clerk_bills() {
    let mut inputs = Inputs::new(410);
    let mut met = [0; 7];
    for _ in 0..2_000 {
        let mut run = Run::new(inputs.sequence());
        for _ in 0..inputs.number(1, 40) {
            run.step(near(&mut inputs, run.clerk.next()));
        }
        met = std::array::from_fn(|status| met[status] + run.met[status]);
    }
    Run::has_met(met, 300);
}

/// From shortly before the last distance on, with the numbers beyond it.
#[test]
fn runs_at_the_end_of_a_session_are_billed_as_the_clerk_bills() {
    let mut inputs = Inputs::new(411);
    let mut met = [0; 7];
    for first in FIRSTS {
        for _ in 0..30 {
            let mut run = Run::new(first);
            run.step((1 << 31) - inputs.number(1, 300) as u64);
            for _ in 0..400 {
                let next = run.clerk.next();
                let distance = match inputs.number(0, 3) {
                    0 => next,
                    1 => inputs.pick(&FAR),
                    _ => next + 10 - inputs.number(0, 80) as u64,
                };
                run.step(distance);
            }
            assert_eq!(run.words[1], 1 << 31);
            met = std::array::from_fn(|status| met[status] + run.met[status]);
        }
    }
    Run::has_met(met, 300);
}

#[test]
fn numbers_at_random_are_billed_as_the_clerk_bills() {
    let mut inputs = Inputs::new(412);
    for _ in 0..500 {
        let mut run = Run::new(inputs.sequence());
        for _ in 0..20 {
            run.step(inputs.sequence().into());
        }
    }
}

/// A session's numbers, each up to so many places from its own, some twice and
/// some not at all.
#[test]
fn reordered_sessions_with_repeats_are_billed_as_the_clerk_bills() {
    let mut inputs = Inputs::new(413);
    for first in FIRSTS {
        for reach in [0, 1, 3, 30, 62, 63, 64, 65, 66, 100, 300] {
            let mut places = Vec::new();
            for distance in 0..1_000_u64 {
                for _ in 0..inputs.pick(&[0, 1, 1, 1, 1, 2, 3]) {
                    places.push((distance as usize + inputs.number(0, reach), distance));
                }
            }
            places.sort();
            let mut run = Run::new(first);
            for &(_, distance) in &places {
                run.step(distance);
            }
            let distinct: BTreeSet<u64> = places.iter().map(|place| place.1).collect();
            let all = distinct.len() as u64;
            match reach {
                0..=64 => assert_eq!(run.words[3], all, "{reach}"),
                300.. => assert!(run.words[3] < all, "{reach}"),
                _ => {}
            }
        }
    }
}

/// The same set of numbers over and over is billed once.
#[test]
fn a_session_received_again_is_billed_once() {
    for first in FIRSTS {
        let mut run = Run::new(first);
        for _ in 0..3 {
            for distance in (0..500).chain((0..500).rev()) {
                run.step(distance);
            }
        }
        assert_eq!((run.words[3], run.met[1]), (500, 500));
    }
}

const EDGES: [u64; 10] = [0, 1, 2, 62, 63, 64, 65, 66, (1 << 31) - 1, 1 << 31];

/// Tries each of the edges next, and so on `depth` times.
fn all_histories(run: &Run, depth: usize) {
    for distance in EDGES {
        let mut longer = run.clone();
        longer.step(distance);
        if depth > 1 {
            all_histories(&longer, depth - 1);
        }
    }
}

#[test]
fn every_history_of_five_numbers_at_the_edges_is_billed_as_the_clerk_bills() {
    for first in [0, u32::MAX - 2] {
        all_histories(&Run::new(first), 5);
    }
}
