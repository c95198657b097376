//! The time of a call.

use std::hint::black_box;
use std::time::Instant;

const RUNS: usize = 15;

/// The best of several runs of so many calls, in ns for one call.
pub fn best(calls: u32, mut call: impl FnMut() -> usize) -> f64 {
    let mut least = f64::MAX;
    for _ in 0..RUNS {
        let start = Instant::now();
        for _ in 0..calls {
            black_box(call());
        }
        least = least.min(start.elapsed().as_nanos() as f64 / f64::from(calls));
    }
    least
}
