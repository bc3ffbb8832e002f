//! Refusals of the calls on posits: formats within and outside the limits, operation numbers above 3, and patterns at and past 2^n in each operand.

use crate::call;
use crate::formats;
use crate::tally::{Difference, Outcome, Tally};
use second::posit::Decoded;

/// The operations, and numbers that are none.
const OPERATIONS: [u8; 8] = [0, 1, 2, 3, 4, 5, 128, 255];

pub fn every() -> Outcome {
    let mut tally = Tally::default();
    for (n, es) in formats::around_limits() {
        calls(&mut tally, n, es)?;
    }
    Ok(tally)
}

fn calls(tally: &mut Tally, n: u32, es: u32) -> Result<(), Difference> {
    for decoded in [Decoded::Zero, Decoded::Nar, one()] {
        call::encode(tally, n, es, decoded)?;
    }
    for x in [0.0, -1.5, f64::INFINITY, f64::NAN] {
        call::from_float(tally, n, es, x)?;
    }
    for left in patterns(n) {
        call::to_float(tally, n, es, left)?;
        call::decode(tally, n, es, left)?;
        call::negate(tally, n, es, left)?;
        for right in patterns(n) {
            call::compare(tally, n, es, left, right)?;
            for op in OPERATIONS {
                call::operate(tally, n, es, op, left, right)?;
            }
        }
    }
    Ok(())
}

fn one() -> Decoded {
    Decoded::Finite {
        negative: false,
        scale: 0,
        fraction: 1,
    }
}

/// Patterns around 2^n, where it is a number of 32 bits, and the ends of the type.
fn patterns(n: u32) -> Vec<u32> {
    let mut patterns = vec![0, 1, u32::MAX - 1, u32::MAX];
    if let Some(past) = 1u32.checked_shl(n) {
        let near = [past - 1, past, past.saturating_add(1)];
        patterns.extend(near);
        patterns.push(past.saturating_mul(2));
    }
    patterns
}
