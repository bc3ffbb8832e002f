//! Negation and comparisons of ranges: every word and every pair of words of widths 3 and 4, and random pairs of the wider ones.

use crate::formats;
use crate::picks;
use crate::random::Random;
use crate::range_call;
use crate::tally::{Outcome, Tally};

/// Pairs of each of the 36 formats wider than 4 bits: a million in all.
const RANDOM_PAIRS: u32 = 28_000;

pub fn all_pairs() -> Outcome {
    let mut tally = Tally::default();
    for (n, es) in formats::of_widths(3, 4) {
        let words = 1u64 << (2 * n + 2);
        for left in 0..words {
            range_call::negate(&mut tally, n, es, left)?;
            for right in 0..words {
                range_call::compare(&mut tally, n, es, left, right)?;
            }
        }
    }
    Ok(tally)
}

pub fn random_pairs() -> Outcome {
    let mut tally = Tally::default();
    let mut random = Random::new();
    for (n, es) in formats::of_widths(5, 16) {
        for _ in 0..RANDOM_PAIRS {
            let (left, right) = picks::words(&mut random, n);
            range_call::negate(&mut tally, n, es, left)?;
            range_call::compare(&mut tally, n, es, left, right)?;
        }
    }
    Ok(tally)
}
