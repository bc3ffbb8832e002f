//! Nanoseconds per operation: the best of several rounds of passes over a column.

use crate::column::LENGTH;
use std::hint::black_box;
use std::time::{Duration, Instant};

const ROUNDS: u32 = 60;

/// A round takes at least so long, or one pass: short enough that some rounds are left alone on a busy machine.
const ROUND: Duration = Duration::from_millis(1);

/// The programs take their rounds in turn, so that what else the machine does falls on all of them.
pub fn nanoseconds<const COUNT: usize>(passes: [&dyn Fn(); COUNT]) -> [f64; COUNT] {
    let mut best = [f64::INFINITY; COUNT];
    for _ in 0..ROUNDS {
        let measured = passes.map(round);
        best = std::array::from_fn(|i| best[i].min(measured[i]));
    }
    best
}

/// The call on each row of the column once.
pub fn pass<C, T>(column: &C, call: impl Fn(&C, usize) -> T) {
    let column = black_box(column);
    for row in 0..LENGTH {
        black_box(call(column, row));
    }
}

fn round(pass: &dyn Fn()) -> f64 {
    let start = Instant::now();
    let mut passes = 0;
    while passes == 0 || start.elapsed() < ROUND {
        pass();
        passes += 1;
    }
    start.elapsed().as_nanos() as f64 / (passes as f64 * LENGTH as f64)
}
