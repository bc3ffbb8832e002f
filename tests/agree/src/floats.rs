//! Posits from floats: random ones, each exponent, subnormals, rounding points and specials; and every posit as a float and back.

use crate::call;
use crate::formats;
use crate::random::Random;
use crate::tally::{Difference, Outcome, Tally};
use second::format;

/// Floats of random bits of each of the 42 formats, as many among the posits, and a quarter as many subnormals: a million in all.
const RANDOM_FLOATS: u32 = 10_600;

/// The exponent field of 1.0, and how many bits stand below it.
const BIAS: u64 = 1023;
const FRACTION_BITS: u32 = 52;

pub fn every() -> Outcome {
    let mut tally = Tally::default();
    let mut random = Random::new();
    for (n, es) in formats::all() {
        for x in specials() {
            call::from_float(&mut tally, n, es, x)?;
        }
        every_exponent(&mut tally, &mut random, n, es)?;
        at_random(&mut tally, &mut random, n, es)?;
        around_middles(&mut tally, n, es)?;
    }
    Ok(tally)
}

/// Zeros, infinities, NaNs of both signs and kinds, and the ends of the normal and the subnormal floats.
pub fn specials() -> impl Iterator<Item = f64> {
    let infinity = f64::INFINITY.to_bits();
    let hidden = 1 << FRACTION_BITS;
    let sizes = [0, 1, hidden - 1, hidden, hidden + 1, infinity - 1, infinity];
    let nans = [infinity + 1, infinity + hidden / 2, i64::MAX as u64];
    let signed = |bits| [bits, bits | 1 << 63].map(f64::from_bits);
    sizes.into_iter().chain(nans).flat_map(signed)
}

/// A float of each exponent field, with a random sign and fraction.
fn every_exponent(
    tally: &mut Tally,
    random: &mut Random,
    n: u32,
    es: u32,
) -> Result<(), Difference> {
    for field in 0..=2047 {
        let x = float(random.flag(), field, random.bits());
        call::from_float(tally, n, es, x)?;
    }
    Ok(())
}

/// A float of a sign, an exponent field and the low bits for its fraction.
pub fn float(negative: bool, field: u64, fraction: u64) -> f64 {
    let low = fraction % (1 << FRACTION_BITS);
    f64::from_bits(u64::from(negative) << 63 | field << FRACTION_BITS | low)
}

fn at_random(tally: &mut Tally, random: &mut Random, n: u32, es: u32) -> Result<(), Difference> {
    let reach = u64::from(format::reach(n, es)) + 2;
    for row in 0..RANDOM_FLOATS {
        call::from_float(tally, n, es, f64::from_bits(random.bits()))?;
        let field = BIAS - reach + random.below(2 * reach + 1);
        let fraction = random.bits() << random.below(u64::from(FRACTION_BITS));
        let x = float(random.flag(), field, fraction);
        call::from_float(tally, n, es, x)?;
        if row % 4 == 0 {
            let length = 1 + random.below(FRACTION_BITS.into());
            let size = random.bits() >> (64 - length);
            call::from_float(tally, n, es, float(random.flag(), 0, size))?;
        }
    }
    Ok(())
}

/// The middle of each pair of neighbours, which is the odd pattern one bit wider, and the floats just below and above it.
fn around_middles(tally: &mut Tally, n: u32, es: u32) -> Result<(), Difference> {
    let m = format::reach(n + 1, es) as i32;
    for pattern in (1..1u64 << (n + 1)).step_by(2) {
        let Some(value) = format::read(n + 1, es, pattern) else {
            continue;
        };
        // Both steps are exact: the middle has at most 15 significant bits and a small scale.
        let middle = value as f64 * 2f64.powi(-m);
        let bits = middle.to_bits();
        for x in [bits - 1, bits, bits + 1].map(f64::from_bits) {
            call::from_float(tally, n, es, x)?;
        }
    }
    Ok(())
}

/// Every pattern of every format as a float, and that float as a posit again.
pub fn of_patterns() -> Outcome {
    let mut tally = Tally::default();
    for (n, es) in formats::all() {
        for pattern in 0..1u32 << n {
            call::to_float(&mut tally, n, es, pattern)?;
            again(&mut tally, n, es, pattern)?;
        }
    }
    Ok(tally)
}

/// What the proved code gives as a float it takes back to the same pattern.
fn again(tally: &mut Tally, n: u32, es: u32, pattern: u32) -> Result<(), Difference> {
    let floated = jorumrain::raw::to_float(n, es, pattern);
    if floated.kind == jorumrain::raw::NAR {
        return Ok(());
    }
    call::from_float(tally, n, es, floated.float)?;
    let back = jorumrain::raw::from_float(n, es, floated.float);
    if back.posit == pattern {
        return Ok(());
    }
    let call = format!("from_float of to_float {:?}", (n, es, pattern));
    let answers = format!("proved {floated:?}, then {back:?}");
    Err(Difference(format!("{call}: {answers}")))
}
