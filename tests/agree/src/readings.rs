//! Readings coming in, with every special float and a million random pairs, and ranges going out.

use crate::floats::{float, specials};
use crate::formats;
use crate::picks;
use crate::random::Random;
use crate::range_call;
use crate::tally::{Outcome, Tally};

/// Random readings of each of the 42 formats: a million in all.
const RANDOM_READINGS: u32 = 24_000;

/// Random words of each format going out.
const RANDOM_WORDS: u32 = 5_000;

/// The exponent fields around that of 1.0 in which all posits lie, with a few beyond.
const LEAST_FIELD: u64 = 1023 - 64;
const FIELDS: u64 = 128;

pub fn coming_in() -> Outcome {
    let mut tally = Tally::default();
    let mut random = Random::new();
    for (n, es) in formats::all() {
        for low in specials() {
            for high in specials() {
                range_call::take_in(&mut tally, n, es, low, high)?;
            }
            let other = picked(&mut random);
            range_call::take_in(&mut tally, n, es, low, other)?;
            range_call::take_in(&mut tally, n, es, other, low)?;
        }
        for _ in 0..RANDOM_READINGS {
            let (low, high) = pair(&mut random);
            range_call::take_in(&mut tally, n, es, low, high)?;
        }
    }
    for (n, es) in formats::around_limits() {
        range_call::take_in(&mut tally, n, es, 1.0, 2.0)?;
        range_call::take_in(&mut tally, n, es, f64::NAN, 2.0)?;
    }
    Ok(tally)
}

/// Every word of widths 3 and 4 and some past them, random words of every format, and formats outside the limits.
pub fn going_out() -> Outcome {
    let mut tally = Tally::default();
    let mut random = Random::new();
    for (n, es) in formats::of_widths(3, 4) {
        for word in 0..(1 << (2 * n + 2)) + 8 {
            range_call::give_out(&mut tally, n, es, word)?;
        }
    }
    for (n, es) in formats::all() {
        for _ in 0..RANDOM_WORDS {
            let (word, other) = picks::words(&mut random, n);
            range_call::give_out(&mut tally, n, es, word)?;
            range_call::give_out(&mut tally, n, es, other)?;
        }
    }
    for (n, es) in formats::around_limits() {
        range_call::give_out(&mut tally, n, es, 0)?;
    }
    Ok(tally)
}

/// Low and high in order in seven of eight, the same number in one of sixteen.
fn pair(random: &mut Random) -> (f64, f64) {
    let low = picked(random);
    let high = match random.below(16) {
        0 => low,
        _ => picked(random),
    };
    if high < low && random.below(8) != 0 {
        return (high, low);
    }
    (low, high)
}

/// A float among the posits in most, with few digits in a half of these so that it often is one; else any bits.
fn picked(random: &mut Random) -> f64 {
    let field = LEAST_FIELD + random.below(FIELDS);
    let negative = random.flag();
    match random.below(8) {
        0 => f64::from_bits(random.bits()),
        1..=3 => float(negative, field, random.bits()),
        _ => float(negative, field, random.below(1 << 8) << 44),
    }
}
