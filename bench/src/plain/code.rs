//! The code of a posit above 0, which is the bits of the double that it is, exact results of codes, and their place among the posits.

use super::power;

/// A double's sign, the first place of its exponent, and the exponent of 1.
const SIGN: u64 = 1 << 63;
const UNIT: u64 = 1 << 52;
const BIAS: u64 = 1023;

/// The bits of 2^-26.
const BELOW: u64 = (BIAS - 26) * UNIT;

const FIRST: u64 = 1 << 63;
const REGIMES: u64 = 64;
const REGIME: u64 = 1 << 57;
const TO_TAIL: u64 = 64;

/// Twelve of a quotient's 52 digits behind the first are cut off.
const CUT: u64 = 1 << 12;

/// x, or all its bits turned over.
fn flipped(mark: u64, x: u64) -> u64 {
    x ^ 0u64.wrapping_sub(mark)
}

pub fn code_of(n: u32, es: u32, m: u32) -> u64 {
    let ones = 1u32 << (n - 1);
    let folded = (2 * m ^ ones) as i32 - ones as i32;
    let bits = f64::from(folded).to_bits() << es;
    let one = (1022 + n as u64) * power(es);
    let behind_ones = ((one + BIAS) << 52)
        .wrapping_add(SIGN << es)
        .wrapping_sub(bits);
    let behind_zeros = bits.wrapping_sub((one - BIAS) * UNIT);
    if folded < 0 {
        behind_ones
    } else {
        behind_zeros
    }
}

pub fn product(x: u64, y: u64) -> u64 {
    (f64::from_bits(x) * f64::from_bits(y)).to_bits()
}

/// Forty digits behind the first tell where the quotient lies.
pub fn quotient(x: u64, y: u64) -> u64 {
    (f64::from_bits(x) / f64::from_bits(y)).to_bits() / CUT * CUT
}

/// A summand brought near to the other one, so that a double holds their sum.
fn raised(x: u64, y: u64) -> u64 {
    let (own, least) = (f64::from_bits(x), f64::from_bits(y) * f64::from_bits(BELOW));
    (if own < least { least } else { own }).to_bits()
}

pub fn total(x: u64, y: u64) -> u64 {
    (f64::from_bits(raised(x, y)) + f64::from_bits(raised(y, x))).to_bits()
}

/// The size of x less y, which differ.
pub fn difference(x: u64, y: u64) -> u64 {
    (f64::from_bits(raised(x, y)) - f64::from_bits(raised(y, x))).to_bits() % SIGN
}

/// The sum's sign and size, or nothing where it is zero.
pub fn signed_sum(less: bool, x: u64, under: bool, y: u64) -> Option<(bool, u64)> {
    let signed = |negative: bool, c: u64| f64::from_bits(negative as u64 * SIGN + c);
    let bits = (signed(less, raised(x, y)) + signed(under, raised(y, x))).to_bits();
    let size = bits % SIGN;
    if size == 0 {
        return None;
    }
    Some((SIGN <= bits, size))
}

/// 2p where the number is the posit p, and 2p + 1 where it lies above p and below the next one.
pub fn step_of(n: u32, es: u32, c: u64) -> u32 {
    let lowest = (BIAS - REGIMES * power(es)) * UNIT;
    let word = (c - lowest) * power(5 - es);
    let ones = word / FIRST;
    let z = flipped(ones, word);
    let closed = FIRST + z % REGIME * TO_TAIL;
    let pattern = flipped(ones, closed / power(64 - (z / REGIME) as u32));
    let unit = power(65 - n);
    let gap = 63 < pattern % unit;
    2 * (pattern / unit) as u32 + gap as u32
}
