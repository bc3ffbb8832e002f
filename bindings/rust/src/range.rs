//! The calls on ranges; a range is a word, its start tile · 2^(n+1) + its end tile, and a tile is 2P, or 2P + 1 where the end P is open.

use crate::operation::Operation;
use crate::raw::range as raw;
use crate::refusal::{answered, Refusal};

/// All rationals from low to high, both included; -infinity as low and +infinity as high mean unbounded.
#[derive(Clone, Copy, Debug, PartialEq)]
pub struct Reading {
    pub low: f64,
    pub high: f64,
}

/// A range as two exact floats; unbounded ends are the infinities, open, and an empty range is 0.0 twice, both open.
#[derive(Clone, Copy, Debug, PartialEq)]
pub struct Outgoing {
    pub low: f64,
    pub high: f64,
    pub low_open: bool,
    pub high_open: bool,
    pub empty: bool,
}

/// The range of the negatives. Refused: 1; 3 and 4.
pub fn negate(n: u32, es: u32, a: u64) -> Result<u64, Refusal> {
    word(raw::negate(n, es, a))
}

/// The smallest range of every exact result of one member from each. Refused: 1; 3 and 4 for a; 3 and 4 for b; 5.
pub fn operate(n: u32, es: u32, op: Operation, a: u64, b: u64) -> Result<u64, Refusal> {
    word(raw::operate(n, es, op.number(), a, b))
}

/// The smallest range of a reading. Refused: 1; 6.
pub fn take_in(n: u32, es: u32, reading: Reading) -> Result<u64, Refusal> {
    word(raw::take_in(n, es, reading.low, reading.high))
}

/// The range as floats. Refused: 1; 3 and 4.
pub fn give_out(n: u32, es: u32, a: u64) -> Result<Outgoing, Refusal> {
    let answer = raw::give_out(n, es, a);
    let outgoing = Outgoing {
        low: answer.low,
        high: answer.high,
        low_open: answer.low_open,
        high_open: answer.high_open,
        empty: answer.empty,
    };
    answered(answer.number, answer.place, outgoing)
}

/// Whether each member of a is in b. Refused: 1; 3 and 4 for a; 3 and 4 for b.
pub fn inside(n: u32, es: u32, a: u64, b: u64) -> Result<bool, Refusal> {
    reply(raw::inside(n, es, a, b))
}

/// Whether some member is in both. Refused as `inside`.
pub fn meets(n: u32, es: u32, a: u64, b: u64) -> Result<bool, Refusal> {
    reply(raw::meets(n, es, a, b))
}

/// Whether each member of a is less than each of b. Refused as `inside`.
pub fn below(n: u32, es: u32, a: u64, b: u64) -> Result<bool, Refusal> {
    reply(raw::below(n, es, a, b))
}

fn word(answer: raw::RangeAnswer) -> Result<u64, Refusal> {
    answered(answer.number, answer.place, answer.word)
}

fn reply(answer: raw::RangeReply) -> Result<bool, Refusal> {
    answered(answer.number, answer.place, answer.yes)
}
