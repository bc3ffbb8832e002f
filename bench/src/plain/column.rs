//! Two columns of ranges combined pair by pair, in plain Rust: ranges above 0, and across 0 on the left, have a way of their own.

use super::is_format;
use super::range::operate;
use super::tiles::{across_product, across_quotient};
use super::tiles::{plain_fault, plain_product, plain_quotient, spread_fault, spread_sum};

const ADD: u8 = 0;
const SUBTRACT: u8 = 1;
const MULTIPLY: u8 = 2;
const DIVIDE: u8 = 3;

/// The number of the first refusal, and then nothing is written.
#[inline(never)]
pub fn combine(n: u32, es: u32, op: u8, left: &[u64], right: &[u64], lent: &mut [u64]) -> u32 {
    if !is_format(n, es) || op > DIVIDE || left.len() != right.len() || lent.len() < left.len() {
        return 1;
    }
    if op != SUBTRACT && all_plain(n, left, right) {
        write_plain(n, es, op, left, right, lent);
        return 0;
    }
    for (a, b) in left.iter().zip(right) {
        let number = operate(n, es, op, *a, *b).number;
        if number != 0 {
            return number;
        }
    }
    for ((a, b), out) in left.iter().zip(right).zip(lent) {
        *out = operate(n, es, op, *a, *b).word;
    }
    0
}

fn all_plain(n: u32, left: &[u64], right: &[u64]) -> bool {
    let mut faults = 0;
    for (a, b) in left.iter().zip(right) {
        faults |= spread_fault(n, *a) | plain_fault(n, *b);
    }
    faults < 1 << 63
}

fn write_plain(n: u32, es: u32, op: u8, left: &[u64], right: &[u64], lent: &mut [u64]) {
    let below = 1 << (2 * n + 1);
    for ((a, b), out) in left.iter().zip(right).zip(lent) {
        *out = match (op, below <= *a) {
            (MULTIPLY, false) => plain_product(n, es, *a, *b),
            (MULTIPLY, true) => across_product(n, es, *a, *b),
            (ADD, _) => spread_sum(n, es, *a, *b),
            (_, false) => plain_quotient(n, es, *a, *b),
            (_, true) => across_quotient(n, es, *a, *b),
        };
    }
}
