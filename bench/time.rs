// The time of a call, as the shortest of several runs.

use std::time::Instant;

const RUNS: usize = 9;

/// The shortest of several runs, in nanoseconds for each time that `f` was called.
pub fn shortest(calls: usize, mut f: impl FnMut()) -> f64 {
    let mut best = f64::MAX;
    for _ in 0..RUNS {
        let start = Instant::now();
        for _ in 0..calls {
            f();
        }
        best = best.min(start.elapsed().as_nanos() as f64 / calls as f64);
    }
    best
}
