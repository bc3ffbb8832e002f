//! The four operations: all pairs of patterns of widths up to 8, and random pairs of the wider ones.

use crate::call;
use crate::formats;
use crate::picks;
use crate::random::Random;
use crate::tally::{Difference, Outcome, Tally};

/// Pairs of each of the 24 formats wider than 8 bits: three million in all.
const RANDOM_PAIRS: u32 = 125_000;

pub fn all_pairs() -> Outcome {
    let mut tally = Tally::default();
    for (n, es) in formats::of_widths(3, 8) {
        for left in 0..1u32 << n {
            for right in 0..1u32 << n {
                all(&mut tally, n, es, left, right)?;
            }
        }
    }
    Ok(tally)
}

pub fn random_pairs() -> Outcome {
    let mut tally = Tally::default();
    let mut random = Random::new();
    for (n, es) in formats::of_widths(9, 16) {
        for _ in 0..RANDOM_PAIRS {
            let (left, right) = picks::posits(&mut random, n);
            all(&mut tally, n, es, left, right)?;
        }
    }
    Ok(tally)
}

fn all(tally: &mut Tally, n: u32, es: u32, left: u32, right: u32) -> Result<(), Difference> {
    for op in 0..=3 {
        call::operate(tally, n, es, op, left, right)?;
    }
    Ok(())
}
