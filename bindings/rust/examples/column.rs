//! What a column of 4,096 products costs from Rust: nanoseconds a pair, the best of many calls.

use jorumrain::sheet::{combine, LONGEST_COLUMN};
use jorumrain::Operation;
use std::time::Instant;

const N: u32 = 16;
const ES: u32 = 2;
const ROUNDS: usize = 400;

/// The same columns in all three languages: positive ranges with closed ends.
fn word(start: u64, width: u64) -> u64 {
    ((2 * start) << (N + 1)) + 2 * (start + width)
}

fn main() {
    let rows = 0..LONGEST_COLUMN as u64;
    let left: Vec<u64> = rows
        .clone()
        .map(|i| word(1 + 7919 * i % 30000, i % 97))
        .collect();
    let right: Vec<u64> = rows.map(|i| word(1 + 6007 * i % 30000, i % 89)).collect();
    let mut lent = vec![0; LONGEST_COLUMN];
    let calls = (0..ROUNDS).map(|_| {
        let start = Instant::now();
        let count = combine(N, ES, Operation::Multiply, &left, &right, 0, &mut lent);
        let taken = start.elapsed();
        assert_eq!(count, Ok(LONGEST_COLUMN));
        taken
    });
    let best = calls.min().expect("there are rounds");
    println!("{:.2}", best.as_nanos() as f64 / LONGEST_COLUMN as f64);
}
