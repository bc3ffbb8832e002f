//! The calls on posits; a posit is a pattern below 2^n.

use crate::operation::Operation;
use crate::raw;
use crate::refusal::{answered, Refusal};
use std::cmp::Ordering;

/// A decoded posit.
#[derive(Clone, Copy, Debug, PartialEq, Eq, Hash)]
pub enum Decoded {
    Zero,
    /// Not a real: what a division by zero gives.
    Nar,
    /// fraction · 2^scale, negated where `negative` is set; decoding always gives an odd fraction.
    Finite {
        negative: bool,
        scale: i32,
        fraction: u32,
    },
}

/// The posit decoded. Refused: 1; 3.
pub fn decode(n: u32, es: u32, p: u32) -> Result<Decoded, Refusal> {
    let answer = raw::decode(n, es, p);
    let decoded = match answer.kind {
        raw::ZERO => Decoded::Zero,
        raw::FINITE => Decoded::Finite {
            negative: answer.negative,
            scale: answer.scale,
            fraction: answer.fraction,
        },
        _ => Decoded::Nar,
    };
    answered(answer.number, answer.place, decoded)
}

/// The posit that a decoded one rounds to; a fraction of 0 is zero. Refused: 1.
pub fn encode(n: u32, es: u32, decoded: Decoded) -> Result<u32, Refusal> {
    let (kind, negative, scale, fraction) = match decoded {
        Decoded::Zero => (raw::ZERO, false, 0, 0),
        Decoded::Nar => (raw::NAR, false, 0, 0),
        Decoded::Finite {
            negative,
            scale,
            fraction,
        } => (raw::FINITE, negative, scale, fraction),
    };
    posit(raw::encode(n, es, kind, negative, scale, fraction))
}

/// The order of two posits; NaR equals itself and is below all else. Refused: 1; 3 for p, 3 for q.
pub fn compare(n: u32, es: u32, p: u32, q: u32) -> Result<Ordering, Refusal> {
    let answer = raw::compare(n, es, p, q);
    let order = match answer.order {
        raw::LESS => Ordering::Less,
        raw::GREATER => Ordering::Greater,
        _ => Ordering::Equal,
    };
    answered(answer.number, answer.place, order)
}

/// The negative of a posit; zero and NaR stay. Refused: 1; 3.
pub fn negate(n: u32, es: u32, p: u32) -> Result<u32, Refusal> {
    posit(raw::negate(n, es, p))
}

/// The operation's exact result rounded; NaR and a zero divisor give NaR. Refused: 1; 3 for p, 3 for q.
pub fn operate(n: u32, es: u32, op: Operation, p: u32, q: u32) -> Result<u32, Refusal> {
    posit(raw::operate(n, es, op.number(), p, q))
}

/// The float's exact value rounded; a NaN and the infinities give NaR. Refused: 1.
pub fn from_float(n: u32, es: u32, x: f64) -> Result<u32, Refusal> {
    posit(raw::from_float(n, es, x))
}

/// The posit's exact value, or nothing for NaR; zero is +0.0. Refused: 1; 3.
pub fn to_float(n: u32, es: u32, p: u32) -> Result<Option<f64>, Refusal> {
    let answer = raw::to_float(n, es, p);
    let float = (answer.kind == raw::FLOAT).then_some(answer.float);
    answered(answer.number, answer.place, float)
}

fn posit(answer: raw::PositAnswer) -> Result<u32, Refusal> {
    answered(answer.number, answer.place, answer.posit)
}
