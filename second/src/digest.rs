//! Digests: one number over all patterns or all pairs of patterns, to compare whole tables.

use crate::format::{self, Format};
use crate::posit;
use crate::refusal::{self, Refusal};

/// The prime 2^61 - 1 that every digest is reduced by.
const PRIME: u128 = (1 << 61) - 1;

/// h after one more number.
fn next(h: u128, number: u128) -> u128 {
    (h * 1_000_003 + number % PRIME) % PRIME
}

/// The values of all patterns in units of 2^-m, of widths 3 to 17 since rounding reads 17 bits.
pub fn values(n: u32, es: u32) -> Result<impl Iterator<Item = Option<i128>>, Refusal> {
    let outside = !(3..=17).contains(&n) || es > 2;
    refusal::refuse_if(outside, refusal::FORMAT, 0)?;
    Ok((0..1u64 << n).map(move |pattern| format::read(n, es, pattern)))
}

/// What a digest takes of each pattern: 2^(2m+1) for NaR, otherwise the value plus 2^(2m).
fn codes(n: u32, es: u32) -> Result<impl Iterator<Item = u128>, Refusal> {
    let values = values(n, es)?;
    let largest = 1u128 << (2 * format::reach(n, es));
    Ok(values.map(move |value| match value {
        Some(value) => largest.wrapping_add_signed(value),
        None => 2 * largest,
    }))
}

/// The digest of all values.
pub fn of_values(n: u32, es: u32) -> Result<u128, Refusal> {
    Ok(codes(n, es)?.fold(0, next))
}

/// The digest of an operation's answers over all pairs of patterns, the left in the outer loop.
pub fn of_operation(n: u32, es: u32, op: u32) -> Result<u128, Refusal> {
    Format::of(n, es)?;
    refusal::refuse_if(op > 3, refusal::OPERATION, 0)?;
    let mut h = 0;
    for left in 0..1u64 << n {
        for right in 0..1u64 << n {
            let answer = posit::operate(n, es, op, left, right);
            h = next(h, u128::from(answer.value));
        }
    }
    Ok(h)
}

/// How many patterns a row of the table covers at most, so that a checker can take it in one piece.
const PIECE: usize = 1 << 14;

/// The rows `values N ES FROM COUNT BEFORE AFTER` of a format: the digest before and after a piece.
fn value_rows(n: u32, es: u32) -> Result<Vec<String>, Refusal> {
    let codes: Vec<u128> = codes(n, es)?.collect();
    let mut before = 0;
    let mut rows = Vec::new();
    for (piece, numbers) in codes.chunks(PIECE).enumerate() {
        let after = numbers.iter().fold(before, |h, &number| next(h, number));
        let (from, count) = (piece * PIECE, numbers.len());
        rows.push(format!("values {n} {es} {from} {count} {before} {after}"));
        before = after;
    }
    Ok(rows)
}

/// The table that the proved definitions are held to: every es at widths 3 to 10 and 16, and the
/// answers of every operation at widths 3 to 5 in rows `answers N ES OP DIGEST`.
pub fn table() -> Result<Vec<String>, Refusal> {
    let mut rows = Vec::new();
    for n in (3..=10).chain([16]) {
        for es in 0..=2 {
            rows.extend(value_rows(n, es)?);
        }
    }
    for n in 3..=5 {
        for (es, op) in (0..=2).flat_map(|es| (0..=3).map(move |op| (es, op))) {
            rows.push(format!(
                "answers {n} {es} {op} {}",
                of_operation(n, es, op)?
            ));
        }
    }
    Ok(rows)
}
