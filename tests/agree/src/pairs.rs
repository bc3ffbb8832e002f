//! Comparisons: all pairs of patterns of widths up to 8, and random pairs of the wider ones.

use crate::call;
use crate::formats;
use crate::random::Random;
use crate::tally::{Outcome, Tally};

/// Pairs of each of the 24 formats wider than 8 bits: a million in all.
const RANDOM_PAIRS: u32 = 42_000;

pub fn all_and_random() -> Outcome {
    let mut tally = Tally::default();
    for (n, es) in formats::of_widths(3, 8) {
        for left in 0..1u32 << n {
            for right in 0..1u32 << n {
                call::compare(&mut tally, n, es, left, right)?;
            }
        }
    }
    let mut random = Random::new();
    for (n, es) in formats::of_widths(9, 16) {
        for _ in 0..RANDOM_PAIRS {
            let left = random.below(1 << n) as u32;
            let right = random.below(1 << n) as u32;
            call::compare(&mut tally, n, es, left, right)?;
        }
    }
    Ok(tally)
}
