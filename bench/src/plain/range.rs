//! The operations on ranges in plain Rust: words to cells, the ends of the results, and back.

use super::code::{code_of, product, quotient, signed_sum, step_of, total};
use super::{chosen, is_format, negated, power, power32};
use jorumrain::raw::range::RangeAnswer;

/// The cells from lo to hi; none where lo is above hi.
#[derive(Clone, Copy)]
struct Span {
    lo: u32,
    hi: u32,
}

// Each call is kept a call of C's kind, as the static library's are.
#[inline(never)]
pub extern "C" fn operate(n: u32, es: u32, op: u8, a: u64, b: u64) -> RangeAnswer {
    if op > 3 {
        return answer(if is_format(n, es) { 2 } else { 1 }, 0, 0);
    }
    if !is_format(n, es) {
        return answer(1, 0, 0);
    }
    let left = match taken(n, a) {
        Ok(cells) => cells,
        Err(number) => return answer(number, 0, 0),
    };
    let right = match taken(n, b) {
        Ok(cells) => cells,
        Err(number) => return answer(number, 1, 0),
    };
    match op {
        0 => answer(0, 0, add(n, es, left, right)),
        1 => answer(0, 0, add(n, es, left, mirror(n, right))),
        2 => answer(0, 0, multiply(n, es, left, right)),
        _ if has_zero(n, right) => answer(5, 1, 0),
        _ => answer(0, 0, divide(n, es, left, right)),
    }
}

fn answer(number: u32, place: u32, word: u64) -> RangeAnswer {
    RangeAnswer {
        number,
        place,
        word,
    }
}

/// The cells of a word's members, or the number of its refusal.
fn taken(n: u32, w: u64) -> Result<Span, u32> {
    if power(2 * n + 2) <= w {
        return Err(3);
    }
    let half = power32(n);
    let all = 2 * half;
    let first = ((w / power(n + 1)) as u32 + half) % all;
    let last = ((w % power(n + 1)) as u32 + half) % all;
    if first == 0 || last == 0 {
        return Err(4);
    }
    let (lo, hi) = (first - 1, (last + all - 1 - 2 * (last % 2)) % all);
    if lo <= hi {
        Ok(Span { lo, hi })
    } else if first == last {
        Ok(no_cells(n))
    } else {
        Err(4)
    }
}

fn top_cell(n: u32) -> u32 {
    2 * power32(n) - 2
}

fn no_cells(n: u32) -> Span {
    Span {
        lo: top_cell(n) + 1,
        hi: 0,
    }
}

pub(super) fn joined(n: u32, start: u32, end: u32) -> u64 {
    start as u64 * power(n + 1) + end as u64
}

fn word_of(n: u32, s: Span) -> u64 {
    if s.hi < s.lo {
        return joined(n, 1, 1);
    }
    let half = power32(n);
    let all = 2 * half;
    let start = (s.lo + 1 + half) % all;
    let end = (s.hi + 3 - 2 * (s.hi % 2) + half) % all;
    joined(n, start, end)
}

fn mirror(n: u32, s: Span) -> Span {
    if s.hi < s.lo {
        return no_cells(n);
    }
    Span {
        lo: top_cell(n) - s.hi,
        hi: top_cell(n) - s.lo,
    }
}

/// The cell of a number above 0 from its step among the posits.
fn above_zero(n: u32, step: u32) -> u32 {
    power32(n) - 1 + step
}

fn add(n: u32, es: u32, x: Span, y: Span) -> u64 {
    if x.hi < x.lo || y.hi < y.lo {
        return joined(n, 1, 1);
    }
    let lo = sum_start(n, es, x.lo, y.lo);
    let hi = sum_end(n, es, x.hi, y.hi);
    word_of(n, Span { lo, hi })
}

fn sum_start(n: u32, es: u32, x: u32, y: u32) -> u32 {
    if x == 0 || y == 0 {
        return 0;
    }
    let posit = |cell: u32| ((cell - 1) / 2 + power32(n - 1) + 1) % power32(n);
    let cell = sum_cell(n, es, posit(x), posit(y));
    cell + cell % 2 * (1 - x % 2 * (y % 2))
}

fn sum_end(n: u32, es: u32, x: u32, y: u32) -> u32 {
    let top = top_cell(n);
    if x == top || y == top {
        return top;
    }
    let posit = |cell: u32| (cell / 2 + power32(n - 1) + 1) % power32(n);
    let cell = sum_cell(n, es, posit(x), posit(y));
    cell - cell % 2 * (1 - x % 2 * (y % 2))
}

fn sum_cell(n: u32, es: u32, p: u32, q: u32) -> u32 {
    let alone = |p: u32| 2 * ((p + power32(n - 1) - 1) % power32(n)) + 1;
    if p == 0 {
        return alone(q);
    }
    if q == 0 {
        return alone(p);
    }
    let (less, x) = signed_form(n, es, p);
    let (under, y) = signed_form(n, es, q);
    match signed_sum(less, x, under, y) {
        None => power32(n) - 1,
        Some((negative, size)) => {
            let cell = above_zero(n, step_of(n, es, size));
            chosen(negative as u32, cell, top_cell(n) - cell)
        }
    }
}

/// The sum of two posits above 0.
pub(super) fn total_cell(n: u32, es: u32, p: u32, q: u32) -> u32 {
    let (x, y) = (code_of(n, es, p), code_of(n, es, q));
    above_zero(n, step_of(n, es, total(x, y)))
}

fn signed_form(n: u32, es: u32, p: u32) -> (bool, u64) {
    let negative = power32(n - 1) <= p;
    let size = chosen(negative as u32, p, negated(n, p));
    (negative, code_of(n, es, size))
}

fn multiply(n: u32, es: u32, x: Span, y: Span) -> u64 {
    if x.hi < x.lo || y.hi < y.lo {
        return joined(n, 1, 1);
    }
    if has_one_sign(n, x) && has_one_sign(n, y) {
        return word_of(n, one_sign(n, es, x, y, products_above));
    }
    if is_mixed(n, x) && has_one_sign(n, y) {
        return word_of(n, mixed_products(n, es, x, y));
    }
    if is_mixed(n, y) && has_one_sign(n, x) {
        return word_of(n, mixed_products(n, es, y, x));
    }
    let signed = signed_results(n, es, x, y, products_above);
    let zero = zero_if(n, has_zero(n, x) || has_zero(n, y));
    word_of(n, hull(signed, zero))
}

fn divide(n: u32, es: u32, x: Span, y: Span) -> u64 {
    if x.hi < x.lo || y.hi < y.lo {
        return joined(n, 1, 1);
    }
    if has_one_sign(n, x) && has_one_sign(n, y) {
        return word_of(n, one_sign(n, es, x, y, quotients_above));
    }
    if is_mixed(n, x) && has_one_sign(n, y) {
        return word_of(n, mixed_quotients(n, es, x, y));
    }
    let signed = signed_results(n, es, x, y, quotients_above);
    word_of(n, hull(signed, zero_if(n, has_zero(n, x))))
}

fn is_mixed(n: u32, s: Span) -> bool {
    power32(n) <= s.hi && s.lo < power32(n) - 1
}

fn mixed_products(n: u32, es: u32, x: Span, y: Span) -> Span {
    let far = magnitudes(n, y).hi;
    let below = product_last(n, es, top_cell(n) - x.lo, far);
    around(n, y, below, product_last(n, es, x.hi, far))
}

fn mixed_quotients(n: u32, es: u32, x: Span, y: Span) -> Span {
    let near = magnitudes(n, y).lo;
    let below = quotient_last(n, es, top_cell(n) - x.lo, near);
    around(n, y, below, quotient_last(n, es, x.hi, near))
}

/// From the negative of one cell up to the other, turned round where y is below 0.
fn around(n: u32, y: Span, below: u32, above: u32) -> Span {
    let top = top_cell(n);
    if is_above(n, y) {
        Span {
            lo: top - below,
            hi: above,
        }
    } else {
        Span {
            lo: top - above,
            hi: below,
        }
    }
}

/// The results of two parts above 0 that have members.
type Above = fn(u32, u32, Span, Span) -> Span;

fn one_sign(n: u32, es: u32, x: Span, y: Span, above: Above) -> Span {
    let results = above(n, es, magnitudes(n, x), magnitudes(n, y));
    if is_above(n, x) == is_above(n, y) {
        results
    } else {
        mirror(n, results)
    }
}

/// The results of the members other than 0, by the four pairs of signs.
fn signed_results(n: u32, es: u32, x: Span, y: Span, above: Above) -> Span {
    let either = |p: Span| {
        let direct = some_above(n, es, p, part_above(n, y), above);
        let across = some_above(n, es, p, part_above(n, mirror(n, y)), above);
        hull(direct, mirror(n, across))
    };
    let direct = either(part_above(n, x));
    let across = either(part_above(n, mirror(n, x)));
    hull(direct, mirror(n, across))
}

fn some_above(n: u32, es: u32, p: Span, q: Span, above: Above) -> Span {
    let top = top_cell(n);
    if top < p.lo || top < q.lo {
        return no_cells(n);
    }
    above(n, es, p, q)
}

fn part_above(n: u32, s: Span) -> Span {
    let first = power32(n);
    if s.hi < first {
        return no_cells(n);
    }
    Span {
        lo: s.lo.max(first),
        hi: s.hi,
    }
}

fn is_above(n: u32, s: Span) -> bool {
    power32(n) <= s.lo
}

fn has_one_sign(n: u32, s: Span) -> bool {
    is_above(n, s) || s.hi < power32(n) - 1
}

fn magnitudes(n: u32, s: Span) -> Span {
    if is_above(n, s) {
        s
    } else {
        mirror(n, s)
    }
}

fn has_zero(n: u32, s: Span) -> bool {
    let zero = power32(n) - 1;
    s.lo <= zero && zero <= s.hi
}

fn zero_if(n: u32, there: bool) -> Span {
    if !there {
        return no_cells(n);
    }
    let zero = power32(n) - 1;
    Span { lo: zero, hi: zero }
}

fn hull(a: Span, b: Span) -> Span {
    Span {
        lo: a.lo.min(b.lo),
        hi: a.hi.max(b.hi),
    }
}

fn products_above(n: u32, es: u32, p: Span, q: Span) -> Span {
    Span {
        lo: product_first(n, es, p.lo, q.lo),
        hi: product_last(n, es, p.hi, q.hi),
    }
}

fn quotients_above(n: u32, es: u32, p: Span, q: Span) -> Span {
    Span {
        lo: quotient_first(n, es, p.lo, q.hi),
        hi: quotient_last(n, es, p.hi, q.lo),
    }
}

fn product_first(n: u32, es: u32, x: u32, y: u32) -> u32 {
    let first = power32(n);
    if x == first || y == first {
        return first;
    }
    let (p, q) = (start_above(n, x), start_above(n, y));
    first_from(x, y, product_cell(n, es, p, q))
}

fn product_last(n: u32, es: u32, x: u32, y: u32) -> u32 {
    let top = top_cell(n);
    if x == top || y == top {
        return top;
    }
    let (p, q) = (end_above(n, x), end_above(n, y));
    last_from(x, y, product_cell(n, es, p, q))
}

fn quotient_first(n: u32, es: u32, x: u32, y: u32) -> u32 {
    let first = power32(n);
    if x == first || y == top_cell(n) {
        return first;
    }
    let (p, q) = (start_above(n, x), end_above(n, y));
    first_from(x, y, quotient_cell(n, es, p, q))
}

fn quotient_last(n: u32, es: u32, x: u32, y: u32) -> u32 {
    let top = top_cell(n);
    if x == top || y == power32(n) {
        return top;
    }
    let (p, q) = (end_above(n, x), start_above(n, y));
    last_from(x, y, quotient_cell(n, es, p, q))
}

fn start_above(n: u32, cell: u32) -> u32 {
    (cell + 1 - power32(n)) / 2
}

fn end_above(n: u32, cell: u32) -> u32 {
    (cell + 2 - power32(n)) / 2
}

pub(super) fn product_cell(n: u32, es: u32, p: u32, q: u32) -> u32 {
    let product = product(code_of(n, es, p), code_of(n, es, q));
    above_zero(n, step_of(n, es, product))
}

pub(super) fn quotient_cell(n: u32, es: u32, p: u32, q: u32) -> u32 {
    let quotient = quotient(code_of(n, es, p), code_of(n, es, q));
    above_zero(n, step_of(n, es, quotient))
}

fn first_from(x: u32, y: u32, cell: u32) -> u32 {
    chosen(x % 2 * (y % 2), cell.div_ceil(2) * 2, cell)
}

fn last_from(x: u32, y: u32, cell: u32) -> u32 {
    chosen(x % 2 * (y % 2), cell / 2 * 2, cell)
}
