//! Refusals of the calls on ranges: formats within and outside the limits, operation numbers above 3, words at and past 2^(2n+2) and words that hold infinity in each operand.

use crate::formats;
use crate::range_call;
use crate::tally::{Outcome, Tally};

/// The operations, and numbers that are none.
const OPERATIONS: [u8; 7] = [0, 1, 2, 3, 4, 128, 255];

pub fn every() -> Outcome {
    let mut tally = Tally::default();
    for (n, es) in formats::around_limits() {
        for left in words(n) {
            range_call::negate(&mut tally, n, es, left)?;
            for right in words(n) {
                range_call::compare(&mut tally, n, es, left, right)?;
                for op in OPERATIONS {
                    range_call::operate(&mut tally, n, es, op, left, right)?;
                }
            }
        }
    }
    Ok(tally)
}

/// Words around 2^(2n+2) where it is a number of 64 bits, words of both tiles' specials, and the ends of the type.
fn words(n: u32) -> Vec<u64> {
    let mut words = vec![0, 1, u64::MAX - 1, u64::MAX];
    let bits = n.saturating_mul(2).saturating_add(2);
    if let Some(past) = 1u64.checked_shl(bits) {
        words.extend([past - 1, past, past.saturating_add(1)]);
        words.push(past.saturating_mul(2));
        words.extend(tiled(n));
    }
    words
}

/// Words whose tiles are 1 and NaR, closed and open: points, the full circle, all reals, and ends out of order.
fn tiled(n: u32) -> impl Iterator<Item = u64> {
    let nar = 1u64 << n;
    let tiles = [nar, nar + 1, nar / 2, nar / 2 + 1];
    let starts = tiles.into_iter();
    starts.flat_map(move |start| tiles.map(|end| (start << (n + 1)) + end))
}
