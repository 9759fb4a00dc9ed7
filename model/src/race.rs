//! Several ways to the same sum, timed in turn in one run.

use std::hint::black_box;
use std::time::Instant;

const TURNS: u32 = 15;

/// One way to a sum.
pub type Runner<'a> = &'a mut dyn FnMut() -> u64;

/// Nanoseconds of one operation of each runner, the best of several turns. The runners take turns, so
/// that a change of the processor's pace meets all, and must give the same sum. Each turn makes so many
/// operations.
pub fn race<const N: usize>(operations: u32, mut runners: [Runner<'_>; N]) -> [f64; N] {
    let mut best = [f64::INFINITY; N];
    for _ in 0..TURNS {
        let turn = runners.each_mut().map(|run| timed(operations, run));
        for (best, (time, sum)) in best.iter_mut().zip(turn) {
            assert_eq!(sum, turn[0].1, "all give the same sum");
            *best = best.min(time);
        }
    }
    best
}

/// Nanoseconds of one of so many operations, and the sum that they give.
fn timed(operations: u32, run: &mut dyn FnMut() -> u64) -> (f64, u64) {
    let start = Instant::now();
    let sum = black_box(run());
    (start.elapsed().as_secs_f64() * 1e9 / f64::from(operations), sum)
}
