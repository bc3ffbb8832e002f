//! One call on both programs: the second program's answer in the static library's shape, and both compared.

use crate::tally::{Difference, Tally};
use jorumrain::raw::{PositAnswer, PositComparison, PositDecoding};
use second::float::{self, Floated};
use second::posit::{self, Decoded};
use second::refusal::Answer;
use std::cmp::Ordering;
use std::fmt::Debug;

/// Counts an answer that both give; the difference names the call with its arguments in decimal.
pub fn agree<T: PartialEq + Debug>(
    tally: &mut Tally,
    name: &'static str,
    arguments: &dyn Debug,
    refusal: (u32, u32),
    proved: T,
    second: Option<T>,
) -> Result<(), Difference> {
    if second.as_ref() == Some(&proved) {
        tally.count(name, refusal);
        return Ok(());
    }
    let second = second.map_or("too large".into(), |answer| format!("{answer:?}"));
    let answers = format!("proved {proved:?}, second {second}");
    Err(Difference(format!("{name} {arguments:?}: {answers}")))
}

pub fn decode(tally: &mut Tally, n: u32, es: u32, pattern: u32) -> Result<(), Difference> {
    let proved = jorumrain::raw::decode(n, es, pattern);
    let second = shape_of_decoding(posit::decode(n, es, pattern.into()));
    let arguments = (n, es, pattern);
    let refusal = (proved.number, proved.place);
    agree(tally, "decode", &arguments, refusal, proved, second)
}

pub fn encode(tally: &mut Tally, n: u32, es: u32, decoded: Decoded) -> Result<(), Difference> {
    match decoded {
        Decoded::Zero => encode_as(tally, n, es, (jorumrain::raw::ZERO, false, 0, 0), decoded),
        Decoded::Nar => encode_as(tally, n, es, (jorumrain::raw::NAR, false, 0, 0), decoded),
        Decoded::Finite {
            negative,
            scale,
            fraction,
        } => {
            let parts = (jorumrain::raw::FINITE, negative, scale, fraction);
            encode_as(tally, n, es, parts, decoded)
        }
    }
}

/// Encoding of kind, sign, scale and fraction that stand for the decoded posit.
pub fn encode_as(
    tally: &mut Tally,
    n: u32,
    es: u32,
    parts: (u32, bool, i32, u32),
    decoded: Decoded,
) -> Result<(), Difference> {
    let (kind, negative, scale, fraction) = parts;
    let proved = jorumrain::raw::encode(n, es, kind, negative, scale, fraction);
    let second = shape_of_posit(posit::encode(n, es, decoded));
    let arguments = (n, es, kind, negative, scale, fraction);
    let refusal = (proved.number, proved.place);
    agree(tally, "encode", &arguments, refusal, proved, second)
}

pub fn compare(
    tally: &mut Tally,
    n: u32,
    es: u32,
    left: u32,
    right: u32,
) -> Result<(), Difference> {
    let proved = jorumrain::raw::compare(n, es, left, right);
    let second = shape_of_order(posit::compare(n, es, left.into(), right.into()));
    let arguments = (n, es, left, right);
    let refusal = (proved.number, proved.place);
    agree(tally, "compare", &arguments, refusal, proved, second)
}

pub fn negate(tally: &mut Tally, n: u32, es: u32, pattern: u32) -> Result<(), Difference> {
    let proved = jorumrain::raw::negate(n, es, pattern);
    let second = shape_of_posit(posit::negate(n, es, pattern.into()));
    let arguments = (n, es, pattern);
    let refusal = (proved.number, proved.place);
    agree(tally, "negate", &arguments, refusal, proved, second)
}

pub fn operate(
    tally: &mut Tally,
    n: u32,
    es: u32,
    op: u8,
    left: u32,
    right: u32,
) -> Result<(), Difference> {
    let proved = jorumrain::raw::operate(n, es, op, left, right);
    let second = posit::operate(n, es, op.into(), left.into(), right.into());
    let arguments = (n, es, op, left, right);
    let refusal = (proved.number, proved.place);
    let second = shape_of_posit(second);
    agree(tally, "operate", &arguments, refusal, proved, second)
}

pub fn from_float(tally: &mut Tally, n: u32, es: u32, x: f64) -> Result<(), Difference> {
    let proved = jorumrain::raw::from_float(n, es, x);
    let second = shape_of_posit(float::from_float(n, es, x));
    let arguments = (n, es, x.to_bits());
    let refusal = (proved.number, proved.place);
    agree(tally, "from_float", &arguments, refusal, proved, second)
}

pub fn to_float(tally: &mut Tally, n: u32, es: u32, pattern: u32) -> Result<(), Difference> {
    let proved = jorumrain::raw::to_float(n, es, pattern);
    let refusal = (proved.number, proved.place);
    // Floats are compared by their bits, which tell +0.0 from -0.0.
    let proved = (refusal, proved.kind, proved.float.to_bits());
    let second = shape_of_float(float::to_float(n, es, pattern.into()));
    let arguments = (n, es, pattern);
    agree(tally, "to_float", &arguments, refusal, proved, second)
}

/// The shapes, or nothing where a number does not fit, which then differs from every answer.
fn shape_of_posit(answer: Answer<u64>) -> Option<PositAnswer> {
    Some(PositAnswer {
        number: answer.number,
        place: answer.place.try_into().ok()?,
        posit: answer.value.try_into().ok()?,
    })
}

fn shape_of_order(answer: Answer<Ordering>) -> Option<PositComparison> {
    Some(PositComparison {
        number: answer.number,
        place: answer.place.try_into().ok()?,
        order: match answer.value {
            Ordering::Less => jorumrain::raw::LESS,
            Ordering::Equal => jorumrain::raw::EQUAL,
            Ordering::Greater => jorumrain::raw::GREATER,
        },
    })
}

fn shape_of_decoding(answer: Answer<Decoded>) -> Option<PositDecoding> {
    let (kind, negative, scale, fraction) = match answer.value {
        Decoded::Zero => (jorumrain::raw::ZERO, false, 0, 0),
        Decoded::Nar => (jorumrain::raw::NAR, false, 0, 0),
        Decoded::Finite {
            negative,
            scale,
            fraction,
        } => (jorumrain::raw::FINITE, negative, scale, fraction),
    };
    Some(PositDecoding {
        number: answer.number,
        place: answer.place.try_into().ok()?,
        kind,
        negative,
        scale,
        fraction,
    })
}

fn shape_of_float(answer: Answer<Floated>) -> Option<((u32, u32), u32, u64)> {
    let (kind, float) = match answer.value {
        Floated::Value(float) => (jorumrain::raw::FLOAT, float),
        Floated::Nar => (jorumrain::raw::NAR, 0.0),
    };
    let refusal = (answer.number, answer.place.try_into().ok()?);
    Some((refusal, kind, float.to_bits()))
}
