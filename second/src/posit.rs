//! Posits: decode, encode, compare, negate and the four operations.

use crate::format::Format;
use crate::operation::Operation;
use crate::ratio::Ratio;
use crate::refusal::{Answer, Refusal};
use std::cmp::Ordering;

/// "one of three things: zero, NaR, or a finite number with sign, scale and fraction".
#[derive(Clone, Copy, Debug, PartialEq, Eq)]
pub enum Decoded {
    Zero,
    Nar,
    /// The number sign · fraction · 2^scale.
    Finite {
        negative: bool,
        scale: i32,
        fraction: u32,
    },
}

/// The decoded form of a pattern; its fraction is odd.
pub fn decode(n: u32, es: u32, pattern: u64) -> Answer<Decoded> {
    Answer::of(decoded(n, es, pattern), Decoded::Zero)
}

fn decoded(n: u32, es: u32, pattern: u64) -> Result<Decoded, Refusal> {
    let format = Format::of(n, es)?;
    format.judge(pattern, 0)?;
    Ok(match format.value(pattern) {
        None => Decoded::Nar,
        Some(0) => Decoded::Zero,
        Some(value) => {
            // Taking out every factor 2 leaves the odd fraction.
            let twos = value.trailing_zeros();
            Decoded::Finite {
                negative: value < 0,
                scale: twos as i32 - format.m() as i32,
                fraction: (value.unsigned_abs() >> twos) as u32,
            }
        }
    })
}

/// The pattern of a decoded posit, rounded; any fraction and scale are taken.
pub fn encode(n: u32, es: u32, decoded: Decoded) -> Answer<u64> {
    Answer::of(encoded(n, es, decoded), 0)
}

fn encoded(n: u32, es: u32, decoded: Decoded) -> Result<u64, Refusal> {
    let format = Format::of(n, es)?;
    Ok(match decoded {
        Decoded::Zero => 0,
        Decoded::Nar => format.nar(),
        Decoded::Finite {
            negative,
            scale,
            fraction,
        } => {
            let signed = i128::from(fraction) * if negative { -1 } else { 1 };
            // Past these scales the size is above every maxPos or, as the fraction has 32 bits,
            // below every minPos, so holding the scale there changes no clause of the rounding.
            format.round(&Ratio::scaled(signed, scale.clamp(-128, 128)))
        }
    })
}

/// Less, equal or greater; "NaR equals itself and is below all else".
pub fn compare(n: u32, es: u32, left: u64, right: u64) -> Answer<Ordering> {
    Answer::of(compared(n, es, left, right), Ordering::Equal)
}

fn compared(n: u32, es: u32, left: u64, right: u64) -> Result<Ordering, Refusal> {
    let format = Format::of(n, es)?;
    format.judge(left, 0)?;
    format.judge(right, 1)?;
    // NaR has no value, and an absent value orders below every present one.
    Ok(format.value(left).cmp(&format.value(right)))
}

/// The posit of minus the value; "Negation keeps zero and NaR".
pub fn negate(n: u32, es: u32, pattern: u64) -> Answer<u64> {
    Answer::of(negated(n, es, pattern), 0)
}

fn negated(n: u32, es: u32, pattern: u64) -> Result<u64, Refusal> {
    let format = Format::of(n, es)?;
    format.judge(pattern, 0)?;
    let opposite = format.value(pattern).and_then(|v| format.pattern_of(-v));
    Ok(opposite.unwrap_or(format.nar()))
}

/// The operation of that number on two posits, rounded once.
pub fn operate(n: u32, es: u32, op: u32, left: u64, right: u64) -> Answer<u64> {
    Answer::of(operated(n, es, op, left, right), 0)
}

fn operated(n: u32, es: u32, op: u32, left: u64, right: u64) -> Result<u64, Refusal> {
    let format = Format::of(n, es)?;
    let operation = Operation::of(op)?;
    format.judge(left, 0)?;
    format.judge(right, 1)?;
    let result = match (format.ratio(left), format.ratio(right)) {
        (Some(x), Some(y)) => exact(operation, &x, &y),
        _ => None,
    };
    Ok(result.map_or(format.nar(), |x| format.round(&x)))
}

/// The exact result, which a zero divisor does not have.
fn exact(operation: Operation, x: &Ratio, y: &Ratio) -> Option<Ratio> {
    match operation {
        Operation::Add => Some(x.plus(y)),
        Operation::Subtract => Some(x.minus(y)),
        Operation::Multiply => Some(x.times(y)),
        Operation::Divide => y.inverse().map(|inverse| x.times(&inverse)),
    }
}

pub fn add(n: u32, es: u32, left: u64, right: u64) -> Answer<u64> {
    operate(n, es, 0, left, right)
}

pub fn subtract(n: u32, es: u32, left: u64, right: u64) -> Answer<u64> {
    operate(n, es, 1, left, right)
}

pub fn multiply(n: u32, es: u32, left: u64, right: u64) -> Answer<u64> {
    operate(n, es, 2, left, right)
}

pub fn divide(n: u32, es: u32, left: u64, right: u64) -> Answer<u64> {
    operate(n, es, 3, left, right)
}
