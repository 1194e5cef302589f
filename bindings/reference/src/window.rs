//! One step of a window on its four words, whatever they hold: for the windows
//! that no history makes. The marks are taken out one by one.

use super::clerk::{is_billed, status_at};

pub type Words = [u64; 4];

const MODULUS: u64 = 1 << 32;

fn marks(seen: u64) -> [bool; 64] {
    let mut rest = seen;
    std::array::from_fn(|_| {
        let mark = rest % 2 == 1;
        rest /= 2;
        mark
    })
}

fn seen(marks: [bool; 64]) -> u64 {
    let mut seen = 0;
    for mark in marks.into_iter().rev() {
        seen = 2 * seen + u64::from(mark);
    }
    seen
}

/// The status of a number, and the words after it.
pub fn bill(words: Words, sequence: u32) -> (u32, Words) {
    let [first, next, before, count] = words;
    let (first, next) = (first % MODULUS, next % MODULUS);
    let distance = (u64::from(sequence) + MODULUS - first) % MODULUS;
    let marks = marks(before);

    let status = status_at(distance, next, || marks[(next - 1 - distance) as usize]);
    if !is_billed(status) {
        return (status, words);
    }

    // Where the mark of each place was before, if it had a place.
    let next_after = next.max(distance + 1);
    let moved = next_after - next;
    let after = std::array::from_fn(|place| {
        let place = place as u64;
        let was = place >= moved && marks[(place - moved) as usize];
        was || place == next_after - 1 - distance
    });
    (
        status,
        [first, next_after, seen(after), count.wrapping_add(1)],
    )
}

/// How many of the marks in use are not set.
pub fn missing(words: Words) -> u32 {
    let in_use = (words[1] % MODULUS).min(64) as usize;
    let marks = marks(words[2]).into_iter().take(in_use);
    marks.filter(|mark| !mark).count() as u32
}
