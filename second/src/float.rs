//! 64-bit floats: the exact value of a float, and posits to and from floats.

use crate::format::Format;
use crate::ratio::Ratio;
use crate::refusal::{Answer, Refusal};

/// A posit as a float: its exact value, or NaR without any float.
#[derive(Clone, Copy, Debug, PartialEq)]
pub enum Floated {
    Value(f64),
    Nar,
}

/// The exact value of a float by its three fields; NaN and the infinities have none.
pub fn exact(float: f64) -> Option<Ratio> {
    let bits = float.to_bits();
    let field = (bits >> 52 & 0x7ff) as i32;
    let fraction = i128::from(bits & ((1 << 52) - 1));
    let size = match field {
        0x7ff => return None,
        // A subnormal has no hidden bit and the power of the least normal field.
        0 => Ratio::scaled(fraction, -1074),
        _ => Ratio::scaled(fraction + (1 << 52), field - 1075),
    };
    Some(if float.is_sign_negative() {
        size.negated()
    } else {
        size
    })
}

/// "A float converts by its exact value; -0 gives 0, NaN and the infinities give NaR."
pub fn from_float(n: u32, es: u32, float: f64) -> Answer<u64> {
    let judged = Format::of(n, es);
    let pattern = judged.map(|format| match exact(float) {
        Some(x) => format.round(&x),
        None => format.nar(),
    });
    Answer::of(pattern, 0)
}

/// "a posit answers either its exact float or "NaR", never a float NaN".
pub fn to_float(n: u32, es: u32, pattern: u64) -> Answer<Floated> {
    Answer::of(floated(n, es, pattern), Floated::Value(0.0))
}

fn floated(n: u32, es: u32, pattern: u64) -> Result<Floated, Refusal> {
    let format = Format::of(n, es)?;
    format.judge(pattern, 0)?;
    Ok(match format.value(pattern) {
        Some(value) => Floated::Value(of_value(format, value)),
        None => Floated::Nar,
    })
}

/// The float of a posit's value in units of minPos; zero goes out as +0.0.
pub fn of_value(format: &Format, value: i128) -> f64 {
    // Both steps are exact: a posit has at most 14 significant bits and a small scale.
    let unit = f64::from_bits(u64::from(1023 - format.m()) << 52);
    value as f64 * unit
}
