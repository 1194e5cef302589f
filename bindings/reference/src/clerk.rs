//! A clerk who bills by the rules of a receive window with the whole history in
//! a set: the window of the reference implementation.

use std::collections::BTreeSet;

/// The numbers of the statuses.
pub const IN_ORDER: u32 = 1;
pub const GAP: u32 = 2;
pub const LATE: u32 = 3;
pub const DUPLICATE: u32 = 4;
pub const OLD: u32 = 5;
pub const OUTSIDE: u32 = 6;

/// The names of the statuses by their numbers, as `krbtoken` prints them.
pub const STATUS_NAMES: [&str; 7] = [
    "none",
    "in order",
    "gap",
    "late",
    "duplicate",
    "old",
    "outside",
];

/// Whether a number with this status is billed.
pub fn is_billed(status: u32) -> bool {
    [IN_ORDER, GAP, LATE].contains(&status)
}

/// The status of a number at this distance, where `next` is the next expected
/// one and `billed` says whether the number was billed.
pub(crate) fn status_at(distance: u64, next: u64, billed: impl FnOnce() -> bool) -> u32 {
    if distance >= 1 << 31 {
        OUTSIDE
    } else if distance == next {
        IN_ORDER
    } else if distance > next {
        GAP
    } else if next - distance > 64 {
        OLD
    } else if billed() {
        DUPLICATE
    } else {
        LATE
    }
}

#[derive(Clone)]
pub struct Clerk {
    first: u32,
    /// Every sequence number that was billed.
    billed: BTreeSet<u32>,
    highest: Option<u64>,
}

impl Clerk {
    pub fn new(first: u32) -> Clerk {
        Clerk {
            first,
            billed: BTreeSet::new(),
            highest: None,
        }
    }

    /// How far the number is from the first, going up and from 2^32 - 1 on to 0.
    fn distance(&self, sequence: u32) -> u64 {
        let (sequence, first) = (u64::from(sequence), u64::from(self.first));
        if sequence >= first {
            sequence - first
        } else {
            sequence + (1 << 32) - first
        }
    }

    /// The number at this distance.
    pub fn at(&self, distance: u64) -> u32 {
        ((u64::from(self.first) + distance) % (1 << 32)) as u32
    }

    /// The next expected distance.
    pub fn next(&self) -> u64 {
        match self.highest {
            Some(highest) => highest + 1,
            None => 0,
        }
    }

    fn status(&self, sequence: u32) -> u32 {
        status_at(self.distance(sequence), self.next(), || {
            self.billed.contains(&sequence)
        })
    }

    /// The number's status, billed by it.
    pub fn bill(&mut self, sequence: u32) -> u32 {
        let status = self.status(sequence);
        if is_billed(status) {
            assert!(self.billed.insert(sequence), "billed twice: {sequence}");
            self.highest = self.highest.max(Some(self.distance(sequence)));
        }
        status
    }

    /// How many numbers were billed.
    pub fn count(&self) -> u64 {
        self.billed.len() as u64
    }

    /// Whether the number at this distance was billed.
    fn has(&self, distance: u64) -> bool {
        self.billed.contains(&self.at(distance))
    }

    /// The four words of a window that has billed the same.
    pub fn words(&self) -> [u64; 4] {
        let mut seen = 0;
        for below in 1..=64.min(self.next()) {
            if self.has(self.next() - below) {
                seen += 2_u64.pow(below as u32 - 1);
            }
        }
        [self.first.into(), self.next(), seen, self.count()]
    }

    /// How many of the last sixty-four distances, or of all so far, were not.
    pub fn missing(&self) -> u32 {
        let next = self.next();
        let last = next.saturating_sub(64)..next;
        last.filter(|&distance| !self.has(distance)).count() as u32
    }
}
