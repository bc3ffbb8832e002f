//! What a refused call gives: document 01's number and place.

use std::error::Error;
use std::fmt;

/// A call refused: its number, from 1 to 10, and the place that the number speaks of.
///
/// The place is 0 or 1 for the left and the right operand of a single call, the pair of a column, or
/// the row of a sheet; a refusal that names no place has 0.
#[derive(Clone, Copy, Debug, PartialEq, Eq, Hash)]
pub struct Refusal {
    pub number: u32,
    pub place: u32,
}

/// The number of an answer, which no refusal has.
pub const DONE: u32 = 0;

/// The numbers of refusals, each given exactly when [`words`] says.
pub const OUTSIDE_LIMITS: u32 = 1;
pub const NO_OPERATION: u32 = 2;
pub const TOO_LARGE: u32 = 3;
pub const HOLDS_INFINITY: u32 = 4;
pub const ZERO_DIVISOR: u32 = 5;
pub const BAD_READING: u32 = 6;
pub const WRONG_LENGTH: u32 = 7;
pub const NOT_EARLIER: u32 = 8;
pub const NO_ROOM: u32 = 9;
pub const BAD_FILE: u32 = 10;

/// The place of a single call's left or only operand, and of its right one.
pub const LEFT: u32 = 0;
pub const RIGHT: u32 = 1;

/// Document 01's words for a number.
#[must_use]
pub const fn words(number: u32) -> &'static str {
    match number {
        DONE => "done",
        OUTSIDE_LIMITS => "n or es outside the format limits",
        NO_OPERATION => "operation number above 3",
        TOO_LARGE => "posit of 2^n or more, or range word of 2^(2n+2) or more",
        HOLDS_INFINITY => "the range holds infinity",
        ZERO_DIVISOR => "the divisor range has 0 as a member",
        BAD_READING => "a reading with a NaN, low +infinity, high -infinity, or low above high",
        WRONG_LENGTH => "columns of unequal length or over 4,096; over 32 inputs or 64 steps; a step list that is no whole number of steps",
        NOT_EARLIER => "a step names a row that isn't earlier",
        NO_ROOM => "the named row (0 for a sheet) plus the words to be written exceeds the lent column's length",
        BAD_FILE => "file shorter than 9 bytes, mark or version wrong, or wrong length",
        _ => "no number that this version knows",
    }
}

impl fmt::Display for Refusal {
    fn fmt(&self, out: &mut fmt::Formatter<'_>) -> fmt::Result {
        let Refusal { number, place } = *self;
        write!(out, "refused {number} at place {place}: {}", words(number))
    }
}

impl Error for Refusal {}

/// The value of an answer with number 0, and the refusal of every other.
pub(crate) fn answered<T>(number: u32, place: u32, value: T) -> Result<T, Refusal> {
    match number {
        DONE => Ok(value),
        _ => Err(Refusal { number, place }),
    }
}
