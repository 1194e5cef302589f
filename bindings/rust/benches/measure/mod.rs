//! Timing for the benches: the best of many short timings, taken in turns, and
//! one line printed for each measure.

use std::hint::black_box;
use std::time::Instant;

/// A contender does what is measured as many times as it is told to.
pub fn contender<T>(call: impl Fn() -> T) -> impl Fn(u32) {
    move |calls| {
        for _ in 0..calls {
            black_box(call());
        }
    }
}

/// The best time of one call, in nanoseconds, of each contender. Every round
/// times each of them once, and begins with another one than the round before.
pub fn best_times<const N: usize>(
    rounds: usize,
    calls: u32,
    contenders: [&dyn Fn(u32); N],
) -> [f64; N] {
    let mut best = [f64::INFINITY; N];
    for round in 0..rounds {
        for turn in 0..N {
            let which = (round + turn) % N;
            let start = Instant::now();
            contenders[which](calls);
            let time = start.elapsed().as_nanos() as f64 / f64::from(calls);
            best[which] = best[which].min(time);
        }
    }
    best
}

/// Prints the measures and counts those within their targets.
#[derive(Default)]
pub struct Report {
    within: usize,
    targets: usize,
}

impl Report {
    /// Prints one measure. The target is the greatest ratio of the library's
    /// time to Rust's that is wished for; `remark` ends the line.
    pub fn line(
        &mut self,
        measure: &str,
        [library, rust]: [f64; 2],
        target: Option<f64>,
        remark: &str,
    ) {
        let ratio = library / rust;
        let target = match target {
            Some(target) => {
                self.targets += 1;
                self.within += usize::from(ratio <= target);
                format!("target {target:.1}")
            }
            None => "no target".to_string(),
        };
        println!(
            "{measure}: library {library:.1} ns, Rust {rust:.1} ns, ratio {ratio:.3}, {target}{remark}"
        );
    }

    /// Prints the closing line.
    pub fn close(self) {
        println!("within target: {} of {}", self.within, self.targets);
    }
}
