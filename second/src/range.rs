//! Ranges: words and their kinds, the smallest range, negation, operations and comparisons.

use crate::format::Format;
use crate::operation::Operation;
use crate::refusal::{self, Answer, Refusal};
use crate::span::{Edge, Reach, Span};

/// "A tile is 2P + u: a posit P with u = 1 for an open end."
#[derive(Clone, Copy, Debug, PartialEq, Eq)]
pub struct Tile {
    pub posit: u64,
    pub open: bool,
}

/// What a range word stands for.
#[derive(Clone, Debug)]
pub enum Kind {
    HoldsInfinity,
    Empty,
    Real(Span),
}

impl Tile {
    fn new(posit: u64, open: bool) -> Tile {
        Tile { posit, open }
    }

    fn of(number: u64) -> Tile {
        Tile::new(number / 2, number % 2 == 1)
    }

    fn number(self) -> u64 {
        2 * self.posit + u64::from(self.open)
    }
}

/// "A range word is start tile · 2^(n+1) + end tile".
pub fn word(format: &Format, start: Tile, end: Tile) -> u64 {
    (start.number() << (format.n() + 1)) + end.number()
}

/// The start and the end tile of a word that was not refused 3.
pub fn tiles(format: &Format, word: u64) -> (Tile, Tile) {
    let size = 1u64 << (format.n() + 1);
    (Tile::of(word / size), Tile::of(word % size))
}

/// The canonical empty word, "0 open at both ends".
pub fn empty(format: &Format) -> u64 {
    word(format, Tile::new(0, true), Tile::new(0, true))
}

/// The reading of a word that was not refused 3, rule by rule.
pub fn kind(format: &Format, word: u64) -> Kind {
    let (start, end) = tiles(format, word);
    let (low, high) = (format.value(start.posit), format.value(end.posit));
    // "A closed NaR at either end: holds infinity", before all other rules.
    if (low.is_none() && !start.open) || (high.is_none() && !end.open) {
        return Kind::HoldsInfinity;
    }
    if let (Some(low), Some(high)) = (low, high) {
        if low > high || (low == high && start.open != end.open) {
            return Kind::HoldsInfinity;
        }
        if low == high && start.open {
            return Kind::Empty;
        }
    }
    Kind::Real(Span {
        low: edge(format, start, Reach::Below),
        high: edge(format, end, Reach::Above),
    })
}

/// A tile as an edge; an open NaR is without bound on its side.
fn edge(format: &Format, tile: Tile, side: Reach) -> Edge {
    match format.ratio(tile.posit) {
        Some(x) => Edge::at(x, !tile.open),
        None => Edge::unbounded(side),
    }
}

/// Refusals 3 and 4 for one operand; otherwise its members, none for an empty word.
pub fn judge(format: &Format, word: u64, place: u64) -> Result<Option<Span>, Refusal> {
    let too_large = word >> (2 * format.n() + 2) != 0;
    refusal::refuse_if(too_large, refusal::TOO_LARGE, place)?;
    match kind(format, word) {
        Kind::HoldsInfinity => Err(Refusal::new(refusal::INFINITY, place)),
        Kind::Empty => Ok(None),
        Kind::Real(span) => Ok(Some(span)),
    }
}

/// "the real range of this format that holds all exact results and lies inside every other".
pub fn smallest(format: &Format, results: Option<&Span>) -> u64 {
    let Some(span) = results else {
        return empty(format);
    };
    let start = match &span.low.at {
        Reach::At(x) => format.at_or_below(x),
        _ => None,
    };
    let end = match &span.high.at {
        Reach::At(x) => format.at_or_above(x),
        _ => None,
    };
    let start = standing(format, start, span.low.attained);
    word(format, start, standing(format, end, span.high.attained))
}

/// An end on the posit found, closed exactly where a result lies on it; unbounded without one.
fn standing(format: &Format, found: Option<(u64, bool)>, attained: bool) -> Tile {
    match found {
        Some((posit, on_the_bound)) => Tile::new(posit, !(on_the_bound && attained)),
        None => Tile::new(format.nar(), true),
    }
}

/// The range of all -x; "Negation turns the ends round."
pub fn negate(n: u32, es: u32, word: u64) -> Answer<u64> {
    Answer::of(negated(n, es, word), 0)
}

fn negated(n: u32, es: u32, word: u64) -> Result<u64, Refusal> {
    let format = Format::of(n, es)?;
    let members = judge(format, word, 0)?;
    Ok(smallest(format, members.map(|a| a.negated()).as_ref()))
}

/// The operation of that number on two ranges.
pub fn operate(n: u32, es: u32, op: u32, left: u64, right: u64) -> Answer<u64> {
    Answer::of(operated(n, es, op, left, right), 0)
}

fn operated(n: u32, es: u32, op: u32, left: u64, right: u64) -> Result<u64, Refusal> {
    let format = Format::of(n, es)?;
    combined(format, Operation::of(op)?, left, right)
}

/// Refusals 3, 4 and 5 in their order, then the smallest range of the exact results.
pub fn combined(format: &Format, op: Operation, left: u64, right: u64) -> Result<u64, Refusal> {
    let a = judge(format, left, 0)?;
    let b = judge(format, right, 1)?;
    let zero_divisor = op == Operation::Divide && b.as_ref().is_some_and(Span::holds_zero);
    refusal::refuse_if(zero_divisor, refusal::ZERO_DIVISOR, 1)?;
    // "With an empty operand the answer is empty."
    let results = match (&a, &b) {
        (Some(a), Some(b)) => Some(results(op, a, b)),
        _ => None,
    };
    Ok(smallest(format, results.as_ref()))
}

fn results(op: Operation, a: &Span, b: &Span) -> Span {
    match op {
        Operation::Add => a.sum(b),
        Operation::Subtract => a.difference(b),
        Operation::Multiply => a.product(b),
        Operation::Divide => a.quotient(b),
    }
}

pub fn add(n: u32, es: u32, left: u64, right: u64) -> Answer<u64> {
    operate(n, es, 0, left, right)
}

pub fn subtract(n: u32, es: u32, left: u64, right: u64) -> Answer<u64> {
    operate(n, es, 1, left, right)
}

pub fn multiply(n: u32, es: u32, left: u64, right: u64) -> Answer<u64> {
    operate(n, es, 2, left, right)
}

pub fn divide(n: u32, es: u32, left: u64, right: u64) -> Answer<u64> {
    operate(n, es, 3, left, right)
}

/// Both operands of a comparison, judged in order.
type Pair = (Option<Span>, Option<Span>);

fn pair(n: u32, es: u32, left: u64, right: u64) -> Result<Pair, Refusal> {
    let format = Format::of(n, es)?;
    let a = judge(format, left, 0)?;
    Ok((a, judge(format, right, 1)?))
}

/// "each member of a is in b"; the empty range is inside everything.
pub fn inside(n: u32, es: u32, left: u64, right: u64) -> Answer<bool> {
    let judged = pair(n, es, left, right).map(|operands| match operands {
        (None, _) => true,
        (Some(_), None) => false,
        (Some(a), Some(b)) => a.inside(&b),
    });
    Answer::of(judged, false)
}

/// "some member in both"; the empty range meets nothing.
pub fn meets(n: u32, es: u32, left: u64, right: u64) -> Answer<bool> {
    let judged = pair(n, es, left, right).map(|operands| match operands {
        (Some(a), Some(b)) => a.meets(&b),
        _ => false,
    });
    Answer::of(judged, false)
}

/// "each member of a is less than each of b"; true when either has none.
pub fn below(n: u32, es: u32, left: u64, right: u64) -> Answer<bool> {
    let judged = pair(n, es, left, right).map(|operands| match operands {
        (Some(a), Some(b)) => a.below(&b),
        _ => true,
    });
    Answer::of(judged, false)
}
