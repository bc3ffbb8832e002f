//! Encodings of numbers that are no posits: at and next to the rounding points, at the ends of scales and fractions, and random ones.

use crate::call;
use crate::formats;
use crate::random::Random;
use crate::tally::{Difference, Outcome, Tally};
use second::format;
use second::posit::Decoded;

/// Numbers of each of the 42 formats: a million in all.
const RANDOM_NUMBERS: u32 = 24_000;

/// Scales of this distance from ±m and from 0 are taken.
const AROUND: i32 = 34;

fn finite(negative: bool, scale: i32, fraction: u32) -> Decoded {
    Decoded::Finite {
        negative,
        scale,
        fraction,
    }
}

/// The middle of each pair of neighbours, which is the odd pattern one bit wider, and the numbers just below and above it.
pub fn around_middles() -> Outcome {
    let mut tally = Tally::default();
    for (n, es) in formats::all() {
        let m = format::reach(n + 1, es) as i32;
        for pattern in (1..1u64 << (n + 1)).step_by(2) {
            let Some(value) = format::read(n + 1, es, pattern) else {
                continue;
            };
            let size = value.unsigned_abs();
            let twos = size.trailing_zeros();
            let middle = (size >> twos) as u32;
            // The shifted fraction has all 32 bits, so that its neighbours lie as close as they can.
            let up = middle.leading_zeros();
            let scale = twos as i32 - m - up as i32;
            for fraction in [-1, 0, 1].map(|step| (middle << up).wrapping_add_signed(step)) {
                call::encode(&mut tally, n, es, finite(value < 0, scale, fraction))?;
            }
        }
    }
    Ok(tally)
}

/// The ends of the scales' and fractions' types, the scales around 0 and ±m, and fractions about each power of two.
pub fn at_boundaries() -> Outcome {
    let mut tally = Tally::default();
    for (n, es) in formats::all() {
        for scale in boundary_scales(format::reach(n, es) as i32) {
            for fraction in boundary_fractions() {
                for negative in [false, true] {
                    call::encode(&mut tally, n, es, finite(negative, scale, fraction))?;
                }
            }
        }
        no_kinds(&mut tally, n, es)?;
    }
    Ok(tally)
}

fn boundary_scales(m: i32) -> Vec<i32> {
    let ends = [i32::MIN, i32::MIN + 1, i32::MAX - 1, i32::MAX];
    let near = (-AROUND..=AROUND).flat_map(|d| [d - m, d, d + m]);
    ends.into_iter().chain(near).collect()
}

fn boundary_fractions() -> Vec<u32> {
    let powers = (1..32).flat_map(|i| [(1 << i) - 1, 1 << i, (1 << i) + 1]);
    let ends = [0, 1, u32::MAX - 1, u32::MAX];
    ends.into_iter().chain(powers).collect()
}

/// A kind's number that is none of the three is encoded as NaR, whatever its parts are.
fn no_kinds(tally: &mut Tally, n: u32, es: u32) -> Result<(), Difference> {
    for kind in [3, 4, 255, 256, 1 << 16, 1 << 31, u32::MAX] {
        for parts in [(kind, false, 0, 0), (kind, true, -3, 5)] {
            call::encode_as(tally, n, es, parts, Decoded::Nar)?;
        }
    }
    Ok(())
}

/// Random signs, scales and fractions of every length; one scale in eight is any of its type, the others lie within reach.
pub fn random() -> Outcome {
    let mut tally = Tally::default();
    let mut random = Random::new();
    for (n, es) in formats::all() {
        let reach = format::reach(n, es) as i32 + AROUND;
        for _ in 0..RANDOM_NUMBERS {
            let fraction = (random.bits() as u32) >> random.below(32);
            let scale = if random.below(8) == 0 {
                random.bits() as i32
            } else {
                random.below(2 * reach as u64 + 1) as i32 - reach
            };
            let number = finite(random.flag(), scale, fraction);
            call::encode(&mut tally, n, es, number)?;
        }
    }
    Ok(tally)
}
