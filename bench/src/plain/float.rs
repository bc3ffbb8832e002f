//! Posits from and to 64-bit floats, by the bits of the floats.

use super::operate::{round, Magnitude};
use super::{done, highest_bit, is_format, power, power32, refused, unpack};
use jorumrain::raw::{PositAnswer, PositFloating, FLOAT, NAR, ZERO};

const SIGN: u64 = 1 << 63;
const HIDDEN: u64 = 1 << 52;
const INFINITE: u64 = 2047;
const BIAS: i32 = 1023;

/// The smallest float above 0 is 2^-LOWEST.
const LOWEST: u64 = 1074;

/// Digits below this are moved up by SPARE_BITS.
const FEW: u64 = 1 << 32;
const SPARE_BITS: u64 = 16;

#[inline(never)]
pub extern "C" fn from_float(n: u32, es: u32, float: f64) -> PositAnswer {
    if !is_format(n, es) {
        return refused(1, 0);
    }
    if float.is_nan() {
        return done(power32(n - 1));
    }
    done(from_pattern(n, es, float.to_bits()))
}

/// The posit of a float that is no NaN.
fn from_pattern(n: u32, es: u32, bits: u64) -> u32 {
    let negative = SIGN <= bits;
    let size = bits % SIGN;
    let exponent = size / HIDDEN;
    if exponent == INFINITE {
        return power32(n - 1);
    }
    if size == 0 {
        return 0;
    }
    if exponent == 0 {
        return round(n, es, negative, magnitude(size, 0));
    }
    let digits = HIDDEN + size % HIDDEN;
    round(n, es, negative, magnitude(digits, exponent - 1))
}

/// digits · 2^shift of the smallest float above 0.
fn magnitude(digits: u64, shift: u64) -> Magnitude {
    if digits < FEW {
        return Magnitude {
            g: digits << SPARE_BITS,
            s: shift,
            a: LOWEST + SPARE_BITS,
            lost: false,
        };
    }
    Magnitude {
        g: digits,
        s: shift,
        a: LOWEST,
        lost: false,
    }
}

#[inline(never)]
pub extern "C" fn to_float(n: u32, es: u32, p: u32) -> PositFloating {
    if !is_format(n, es) {
        return floating(1, FLOAT, 0.0);
    }
    if power32(n) <= p {
        return floating(3, FLOAT, 0.0);
    }
    let x = unpack(n, es, p);
    match x.kind {
        ZERO => floating(0, FLOAT, 0.0),
        NAR => floating(0, NAR, 0.0),
        _ => floating(0, FLOAT, float_of(x.negative, x.scale, x.fraction)),
    }
}

fn floating(number: u32, kind: u32, float: f64) -> PositFloating {
    PositFloating {
        number,
        place: 0,
        kind,
        float,
    }
}

/// The float that is g · 2^s in size, with a sign.
fn float_of(negative: bool, s: i32, g: u32) -> f64 {
    let h = highest_bit(g as u64);
    let exponent = (s + BIAS) as u64 + h as u64;
    let size = exponent * HIDDEN + (g as u64 * power(52 - h) - HIDDEN);
    f64::from_bits(if negative { SIGN + size } else { size })
}
