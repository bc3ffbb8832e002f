//! The posit calls in plain Rust, by the steps of the proved code, without proofs.

mod code;
pub mod column;
mod float;
mod operate;
pub mod range;
mod sum;
mod tiles;

pub use float::{from_float, to_float};
use jorumrain::raw::{PositAnswer, PositComparison, PositDecoding};
use jorumrain::raw::{EQUAL, FINITE, GREATER, LESS, NAR, ZERO};
pub use operate::operate;

/// Zero bits put below a fraction before it is located.
const SPARE_BITS: u64 = 29;

fn is_format(n: u32, es: u32) -> bool {
    (3..=16).contains(&n) && es <= 2
}

fn power(k: u32) -> u64 {
    1 << k
}

fn power32(k: u32) -> u32 {
    1 << k
}

fn highest_bit(x: u64) -> u32 {
    63 - x.leading_zeros()
}

fn negated(n: u32, p: u32) -> u32 {
    0u32.wrapping_sub(p) % power32(n)
}

// Each call is kept a call of C's kind, as the static library's are.
#[inline(never)]
pub extern "C" fn decode(n: u32, es: u32, p: u32) -> PositDecoding {
    if !is_format(n, es) {
        return decoding(1, ZERO);
    }
    if power32(n) <= p {
        return decoding(3, ZERO);
    }
    unpack(n, es, p)
}

fn unpack(n: u32, es: u32, p: u32) -> PositDecoding {
    let nar = power32(n - 1);
    if p == 0 {
        decoding(0, ZERO)
    } else if p == nar {
        decoding(0, NAR)
    } else {
        let size = chosen(p / nar, p, negated(n, p));
        odd_form(n, es, nar < p, size)
    }
}

fn decoding(number: u32, kind: u32) -> PositDecoding {
    PositDecoding {
        number,
        place: 0,
        kind,
        negative: false,
        scale: 0,
        fraction: 0,
    }
}

/// A magnitude in units of minPos: 2^scale · significand / 2^bits.
struct Parts {
    scale: u32,
    bits: u32,
    significand: u32,
}

fn odd_form(n: u32, es: u32, negative: bool, p: u32) -> PositDecoding {
    let x = take_apart(n - 1, es, p);
    let zeros = x.significand.trailing_zeros();
    PositDecoding {
        negative,
        scale: (x.scale + zeros) as i32 - (x.bits + (n - 2) * power32(es)) as i32,
        fraction: x.significand / power32(zeros),
        ..decoding(0, FINITE)
    }
}

fn take_apart(b: u32, es: u32, p: u32) -> Parts {
    let ones = p / power32(b - 1);
    let run = chosen(ones, p, power32(b) - 1 - p);
    if run == 0 {
        return Parts {
            scale: 2 * ((b - 1) * power32(es)),
            bits: 0,
            significand: 1,
        };
    }
    let w = highest_bit(run as u64);
    let regime = chosen(ones, w, 2 * b - 3 - w);
    tail_apart(es, regime, w, p % power32(w))
}

fn tail_apart(es: u32, regime: u32, w: u32, tail: u32) -> Parts {
    let padded = tail * power32(es);
    let unit = power32(w);
    Parts {
        scale: regime * power32(es) + padded / unit,
        bits: w,
        significand: unit + padded % unit,
    }
}

#[inline(never)]
pub extern "C" fn encode(
    n: u32,
    es: u32,
    kind: u32,
    negative: bool,
    scale: i32,
    fraction: u32,
) -> PositAnswer {
    if !is_format(n, es) {
        return refused(1, 0);
    }
    if kind == ZERO || (kind == FINITE && fraction == 0) {
        return done(0);
    }
    if kind != FINITE {
        return done(power32(n - 1));
    }
    let (floor, exact) = locate_scaled(n, es, scale, fraction);
    let p = rounded(n, floor, exact);
    done(with_sign(n, negative, p))
}

fn refused(number: u32, place: u32) -> PositAnswer {
    PositAnswer {
        number,
        place,
        posit: 0,
    }
}

fn done(posit: u32) -> PositAnswer {
    PositAnswer {
        number: 0,
        place: 0,
        posit,
    }
}

fn with_sign(n: u32, negative: bool, p: u32) -> u32 {
    if negative {
        negated(n, p)
    } else {
        p
    }
}

fn locate_scaled(n: u32, es: u32, scale: i32, fraction: u32) -> (u32, bool) {
    let g = (fraction as u64) << SPARE_BITS;
    if scale < 0 {
        locate(n, es, g, 0, -(scale as i64) as u64 + SPARE_BITS)
    } else {
        locate(n, es, g, scale as u64, SPARE_BITS)
    }
}

/// The floor of g · 2^s / 2^a among the patterns one bit longer, and whether it is exact.
fn locate(n: u32, es: u32, g: u64, s: u64, a: u64) -> (u32, bool) {
    let h = highest_bit(g);
    let lift = s + h as u64 + (n as u64 - 1) * power(es);
    if lift < a {
        return (0, false);
    }
    let scale = lift - a;
    let regime = scale / power(es);
    let x = scale % power(es) * power(h) + (g - power(h));
    if regime < 2 * (n as u64 - 1) {
        return behind_run(n, regime as u32, h + es, x);
    }
    let top = 2 * (n as u64 - 1) * power(es);
    (power32(n) - 1, scale == top && g == power(h))
}

/// The tail x behind the run of a regime, without a jump on which run it is.
fn behind_run(n: u32, regime: u32, width: u32, x: u64) -> (u32, bool) {
    let ones = (regime + 33 - n) / 32;
    let w = chosen(ones, regime, 2 * n - 3 - regime);
    let unit = power32(w);
    cut(chosen(ones, unit, power32(n) - 2 * unit), w, width, x)
}

/// The first where the mark is 0, and the second where it is 1.
fn chosen(mark: u32, first: u32, second: u32) -> u32 {
    first.wrapping_add(mark * second.wrapping_sub(first))
}

fn cut(head: u32, w: u32, width: u32, x: u64) -> (u32, bool) {
    let unit = power(width - w);
    (head + (x / unit) as u32, x.is_multiple_of(unit))
}

fn rounded(n: u32, floor: u32, exact: bool) -> u32 {
    let half = floor / 2;
    if half == 0 {
        return 1;
    }
    if half == power32(n - 1) - 1 {
        return half;
    }
    half + floor % 2 * (1 - exact as u32 * (1 - half % 2))
}

#[inline(never)]
pub extern "C" fn compare(n: u32, es: u32, p: u32, q: u32) -> PositComparison {
    if !is_format(n, es) {
        return comparison(1, 0, EQUAL);
    }
    if power32(n) <= p {
        return comparison(3, 0, EQUAL);
    }
    if power32(n) <= q {
        return comparison(3, 1, EQUAL);
    }
    let half = power32(n - 1);
    let a = (p + half) % power32(n);
    let b = (q + half) % power32(n);
    let order = if a < b {
        LESS
    } else if a == b {
        EQUAL
    } else {
        GREATER
    };
    comparison(0, 0, order)
}

fn comparison(number: u32, place: u32, order: u32) -> PositComparison {
    PositComparison {
        number,
        place,
        order,
    }
}

#[inline(never)]
pub extern "C" fn negate(n: u32, es: u32, p: u32) -> PositAnswer {
    if !is_format(n, es) {
        return refused(1, 0);
    }
    if power32(n) <= p {
        return refused(3, 0);
    }
    done(negated(n, p))
}
