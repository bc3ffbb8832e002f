//! The four operations on ranges: every pair of words of width 3 and, for es = 1, of width 4, every pair of real ranges of width 4, and random pairs of all formats.

use crate::formats;
use crate::picks;
use crate::random::Random;
use crate::range_call;
use crate::tally::{Difference, Outcome, Tally};
use second::format::Format;
use second::range;

/// Pairs of each of the 42 formats: two million in all.
const RANDOM_PAIRS: u32 = 48_000;

pub fn all_pairs() -> Outcome {
    let mut tally = Tally::default();
    for (n, es) in formats::of_widths(3, 4) {
        let words = words(n, es);
        for left in &words {
            for right in &words {
                all(&mut tally, n, es, *left, *right)?;
            }
        }
    }
    Ok(tally)
}

/// Every word, or of width 4 where es is not 1 those of real ranges.
fn words(n: u32, es: u32) -> Vec<u64> {
    let every = 0..1u64 << (2 * n + 2);
    match Format::of(n, es) {
        Ok(format) if n == 4 && es != 1 => every
            .filter(|word| range::judge(format, *word, 0).is_ok())
            .collect(),
        _ => every.collect(),
    }
}

pub fn random_pairs() -> Outcome {
    let mut tally = Tally::default();
    let mut random = Random::new();
    for (n, es) in formats::all() {
        for _ in 0..RANDOM_PAIRS {
            let (left, right) = picks::words(&mut random, n);
            all(&mut tally, n, es, left, right)?;
        }
    }
    Ok(tally)
}

fn all(tally: &mut Tally, n: u32, es: u32, left: u64, right: u64) -> Result<(), Difference> {
    for op in 0..=3 {
        range_call::operate(tally, n, es, op, left, right)?;
    }
    Ok(())
}
