//! The operations on ranges above 0, and on ranges across 0 with such a range, by their tiles.

use super::code::{code_of, difference, step_of};
use super::range::{joined, product_cell, quotient_cell, total_cell};
use super::{power, power32};

const OPEN_ZERO: u32 = 1;

/// Below 2^63 exactly where a word is a range above 0 with a member and an upper limit.
pub fn plain_fault(n: u32, w: u64) -> u64 {
    let (start, open) = (w / power(n + 1), w % 2);
    let end = (w % power(n + 1) - open).wrapping_sub(open);
    start.wrapping_sub(1) | end.wrapping_sub(start) | (w << (63 - n))
}

/// Below 2^63 exactly where it is such a range, or one with a start below 0 and an end above it.
pub fn spread_fault(n: u32, w: u64) -> u64 {
    let (half, tile, open) = (power(n), w / power(n + 1), w % 2);
    let start = (tile ^ half).wrapping_sub(half);
    let end = (w % power(n + 1) - open).wrapping_sub(open);
    let above = end.wrapping_sub(1) | end.wrapping_sub(start);
    above | start.wrapping_add(half - 2) | tile.wrapping_sub(1) | (w << (63 - n))
}

/// A start and an end tile.
fn tiles(n: u32, w: u64) -> (u32, u32) {
    ((w / power(n + 1)) as u32, (w % power(n + 1)) as u32)
}

fn open_nar(n: u32) -> u32 {
    power32(n) + 1
}

/// The tile with its posit negated.
fn turned(n: u32, tile: u32) -> u32 {
    (power32(n + 1) - tile + 2 * (tile % 2)) % power32(n + 1)
}

fn start_from(n: u32, s: u32, t: u32, cell: u32) -> u32 {
    (cell + 1 - power32(n)) | (s | t) % 2
}

fn end_from(n: u32, s: u32, t: u32, cell: u32) -> u32 {
    let step = cell + 1 - power32(n);
    (step + 2 * (step % 2)) | (s | t) % 2
}

pub fn spread_sum(n: u32, es: u32, a: u64, b: u64) -> u64 {
    let ((s, u), (t, v)) = (tiles(n, a), tiles(n, b));
    let end = end_from(n, u, v, total_cell(n, es, u / 2, v / 2));
    let start = match (s, t) {
        (OPEN_ZERO, other) | (other, OPEN_ZERO) => other | 1,
        _ if power32(n) <= s => across_start(n, es, s, t),
        _ => start_from(n, s, t, total_cell(n, es, s / 2, t / 2)),
    };
    joined(n, start, end)
}

/// The start tile of the sums from the tile of a posit below 0 and another one on.
fn across_start(n: u32, es: u32, s: u32, t: u32) -> u32 {
    let open = (s | t) % 2;
    let (p, q) = ((power32(n + 1) + 1 - s) / 2, t / 2);
    if p == q {
        return open;
    }
    let step = step_of(n, es, difference(code_of(n, es, q), code_of(n, es, p)));
    (if q < p { power32(n + 1) - step } else { step }) | open
}

pub fn plain_product(n: u32, es: u32, a: u64, b: u64) -> u64 {
    let ((s, u), (t, v)) = (tiles(n, a), tiles(n, b));
    let start = if s == OPEN_ZERO || t == OPEN_ZERO {
        OPEN_ZERO
    } else {
        start_from(n, s, t, product_cell(n, es, s / 2, t / 2))
    };
    let end = end_from(n, u, v, product_cell(n, es, u / 2, v / 2));
    joined(n, start, end)
}

pub fn plain_quotient(n: u32, es: u32, a: u64, b: u64) -> u64 {
    let ((s, u), (t, v)) = (tiles(n, a), tiles(n, b));
    let start = if s == OPEN_ZERO {
        OPEN_ZERO
    } else {
        start_from(n, s, v, quotient_cell(n, es, s / 2, v / 2))
    };
    let end = if t == OPEN_ZERO {
        open_nar(n)
    } else {
        end_from(n, u, t, quotient_cell(n, es, u / 2, t / 2))
    };
    joined(n, start, end)
}

pub fn across_product(n: u32, es: u32, a: u64, b: u64) -> u64 {
    let ((s, u), (_, v)) = (tiles(n, a), tiles(n, b));
    let below = end_from(n, s, v, product_cell(n, es, power32(n) - s / 2, v / 2));
    let above = end_from(n, u, v, product_cell(n, es, u / 2, v / 2));
    joined(n, turned(n, below), above)
}

pub fn across_quotient(n: u32, es: u32, a: u64, b: u64) -> u64 {
    let ((s, u), (t, _)) = (tiles(n, a), tiles(n, b));
    if t == OPEN_ZERO {
        return joined(n, open_nar(n), open_nar(n));
    }
    let below = end_from(n, s, t, quotient_cell(n, es, power32(n) - s / 2, t / 2));
    let above = end_from(n, u, t, quotient_cell(n, es, u / 2, t / 2));
    joined(n, turned(n, below), above)
}
