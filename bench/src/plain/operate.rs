//! The four operations: the operands taken apart, the exact result in a word, and one rounding.

use super::sum::exact_sum;
use super::{done, is_format, locate, negated, power32, refused, rounded, unpack, with_sign};
use jorumrain::raw::{PositAnswer, NAR, ZERO};

/// Zero bits put below a product and below a dividend.
const PRODUCT_SPARE: u64 = 32;
const QUOTIENT_SPARE: u64 = 47;

/// Scales are counted from 2^-OFFSET, below that of every posit.
pub const OFFSET: i32 = 56;

/// From g · 2^s / 2^a to below (g + 1) · 2^s / 2^a; on the lower end itself unless something was lost below.
pub struct Magnitude {
    pub g: u64,
    pub s: u64,
    pub a: u64,
    pub lost: bool,
}

#[inline(never)]
pub extern "C" fn operate(n: u32, es: u32, op: u8, p: u32, q: u32) -> PositAnswer {
    match op {
        0 => judged(n, es, p, q, add),
        1 => judged(n, es, p, q, |n, es, p, q| add(n, es, p, negated(n, q))),
        2 => judged(n, es, p, q, multiply),
        3 => judged(n, es, p, q, divide),
        _ => refused(if is_format(n, es) { 2 } else { 1 }, 0),
    }
}

fn judged(
    n: u32,
    es: u32,
    p: u32,
    q: u32,
    call: impl Fn(u32, u32, u32, u32) -> u32,
) -> PositAnswer {
    if !is_format(n, es) {
        return refused(1, 0);
    }
    if power32(n) <= p {
        return refused(3, 0);
    }
    if power32(n) <= q {
        return refused(3, 1);
    }
    done(call(n, es, p, q))
}

fn add(n: u32, es: u32, p: u32, q: u32) -> u32 {
    let x = unpack(n, es, p);
    match x.kind {
        NAR => return power32(n - 1),
        ZERO => return q,
        _ => {}
    }
    let y = unpack(n, es, q);
    match y.kind {
        NAR => power32(n - 1),
        ZERO => p,
        _ => match exact_sum(&x, &y) {
            None => 0,
            Some((negative, sum)) => round(n, es, negative, sum),
        },
    }
}

fn multiply(n: u32, es: u32, p: u32, q: u32) -> u32 {
    let nar = power32(n - 1);
    let x = unpack(n, es, p);
    match x.kind {
        NAR => return nar,
        ZERO => return if q == nar { nar } else { 0 },
        _ => {}
    }
    let y = unpack(n, es, q);
    match y.kind {
        NAR => return nar,
        ZERO => return 0,
        _ => {}
    }
    let product = Magnitude {
        g: (x.fraction as u64 * y.fraction as u64) << PRODUCT_SPARE,
        s: (x.scale + OFFSET) as u64 + (y.scale + OFFSET) as u64,
        a: 2 * OFFSET as u64 + PRODUCT_SPARE,
        lost: false,
    };
    round(n, es, x.negative != y.negative, product)
}

fn divide(n: u32, es: u32, p: u32, q: u32) -> u32 {
    let nar = power32(n - 1);
    let y = unpack(n, es, q);
    if y.kind == NAR || y.kind == ZERO {
        return nar;
    }
    let x = unpack(n, es, p);
    match x.kind {
        NAR => return nar,
        ZERO => return 0,
        _ => {}
    }
    let dividend = (x.fraction as u64) << QUOTIENT_SPARE;
    let divisor = y.fraction as u64;
    let quotient = Magnitude {
        g: dividend / divisor,
        s: (x.scale + OFFSET) as u64,
        a: (y.scale + OFFSET) as u64 + QUOTIENT_SPARE,
        lost: !dividend.is_multiple_of(divisor),
    };
    round(n, es, x.negative != y.negative, quotient)
}

pub fn round(n: u32, es: u32, negative: bool, x: Magnitude) -> u32 {
    let (floor, exact) = locate(n, es, x.g, x.s, x.a);
    with_sign(n, negative, rounded(n, floor, exact && !x.lost))
}
