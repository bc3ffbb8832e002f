//! Every pattern of every format: decoded, encoded again from its decoded form, and negated.

use crate::call;
use crate::formats;
use crate::tally::{Difference, Outcome, Tally};

pub fn every() -> Outcome {
    let mut tally = Tally::default();
    for (n, es) in formats::all() {
        for pattern in 0..1u32 << n {
            call::decode(&mut tally, n, es, pattern)?;
            let decoded = second::posit::decode(n, es, pattern.into()).value;
            call::encode(&mut tally, n, es, decoded)?;
            again(n, es, pattern)?;
            call::negate(&mut tally, n, es, pattern)?;
        }
    }
    Ok(tally)
}

/// What the proved code decodes it encodes to the same pattern.
fn again(n: u32, es: u32, pattern: u32) -> Result<(), Difference> {
    let d = jorumrain::raw::decode(n, es, pattern);
    let back = jorumrain::raw::encode(n, es, d.kind, d.negative, d.scale, d.fraction);
    if back.posit == pattern {
        return Ok(());
    }
    let call = format!("encode of decode {:?}", (n, es, pattern));
    Err(Difference(format!("{call}: proved {d:?}, then {back:?}")))
}
