//! The exact sum of two decoded posits, over the aligned operands as two-word numbers.

use super::operate::{Magnitude, OFFSET};
use super::{highest_bit, power};
use jorumrain::raw::PositDecoding;

/// Below this a low word is narrow enough to be moved up by SPARE_BITS.
const NARROW: u64 = 0x4000_0000_0000;
const SPARE_BITS: u64 = 16;

/// high · 2^64 + low, in units of 2^-OFFSET.
#[derive(Clone, Copy, PartialEq, Eq, PartialOrd, Ord)]
struct Wide {
    high: u64,
    low: u64,
}

/// The sum's sign and magnitude, or nothing where it is zero.
pub fn exact_sum(p: &PositDecoding, q: &PositDecoding) -> Option<(bool, Magnitude)> {
    let x = widened(p.fraction, (p.scale + OFFSET) as u32);
    let y = widened(q.fraction, (q.scale + OFFSET) as u32);
    if p.negative == q.negative {
        return Some((p.negative, narrowed(sum(x, y))));
    }
    if x < y {
        return Some((q.negative, narrowed(difference(y, x))));
    }
    let left = difference(x, y);
    if left.high == 0 && left.low == 0 {
        return None;
    }
    Some((p.negative, narrowed(left)))
}

/// g · 2^e.
fn widened(g: u32, e: u32) -> Wide {
    let g = g as u64;
    if e < 32 {
        return Wide {
            high: 0,
            low: g * power(e),
        };
    }
    if e < 64 {
        let cut = power(64 - e);
        return Wide {
            high: g / cut,
            low: g % cut * power(e),
        };
    }
    Wide {
        high: g * power(e - 64),
        low: 0,
    }
}

fn sum(x: Wide, y: Wide) -> Wide {
    let (low, carry) = x.low.overflowing_add(y.low);
    Wide {
        high: x.high + y.high + u64::from(carry),
        low,
    }
}

fn difference(x: Wide, y: Wide) -> Wide {
    let (low, borrow) = x.low.overflowing_sub(y.low);
    Wide {
        high: x.high - y.high - u64::from(borrow),
        low,
    }
}

/// As many high bits as a word takes, and whether something was lost below.
fn narrowed(x: Wide) -> Magnitude {
    let unit = OFFSET as u64;
    if x.high == 0 {
        if x.low < NARROW {
            return Magnitude {
                g: x.low << SPARE_BITS,
                s: 0,
                a: unit + SPARE_BITS,
                lost: false,
            };
        }
        return Magnitude {
            g: x.low / 4,
            s: 2,
            a: unit,
            lost: !x.low.is_multiple_of(4),
        };
    }
    let k = highest_bit(x.high);
    let cut = power(k + 3);
    Magnitude {
        g: x.high * power(61 - k) + x.low / cut,
        s: k as u64 + 3,
        a: unit,
        lost: !x.low.is_multiple_of(cut),
    }
}
