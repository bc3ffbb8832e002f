//! Readings: a pair of floats coming in as a range, and a range going out as floats and marks.

use crate::float;
use crate::format::Format;
use crate::range::{self, Kind, Tile};
use crate::refusal::{self, Answer, Refusal};
use crate::span::{Edge, Reach, Span};

/// "A reading is a pair of floats, low and high."
#[derive(Clone, Copy, Debug, PartialEq)]
pub struct Reading {
    pub low: f64,
    pub high: f64,
}

/// A range going out: "both floats exactly, both open marks and an empty mark".
#[derive(Clone, Copy, Debug, PartialEq)]
pub struct Outgoing {
    pub low: f64,
    pub high: f64,
    pub low_open: bool,
    pub high_open: bool,
    pub empty: bool,
}

impl Outgoing {
    /// What a refused call gives: "floats are 0.0 with their marks unset".
    pub const REFUSED: Outgoing = Outgoing {
        low: 0.0,
        high: 0.0,
        low_open: false,
        high_open: false,
        empty: false,
    };
}

/// The smallest range holding all rationals of a reading.
pub fn take_in(n: u32, es: u32, reading: Reading) -> Answer<u64> {
    Answer::of(taken_in(n, es, reading), 0)
}

fn taken_in(n: u32, es: u32, reading: Reading) -> Result<u64, Refusal> {
    let format = Format::of(n, es)?;
    let Reading { low, high } = reading;
    let not_numbers = low.is_nan() || high.is_nan();
    let wrong_side = low == f64::INFINITY || high == f64::NEG_INFINITY;
    refusal::refuse_if(not_numbers || wrong_side, refusal::READING, 0)?;
    let (low, high) = (edge(low, Reach::Below), edge(high, Reach::Above));
    refusal::refuse_if(low.at > high.at, refusal::READING, 0)?;
    Ok(range::smallest(format, Some(&Span { low, high })))
}

/// A float as an included edge; an infinity is without bound on its side.
fn edge(float: f64, side: Reach) -> Edge {
    match float::exact(float) {
        Some(x) => Edge::at(x, true),
        None => Edge::unbounded(side),
    }
}

/// Both floats and the three marks of a range.
pub fn give_out(n: u32, es: u32, word: u64) -> Answer<Outgoing> {
    Answer::of(given_out(n, es, word), Outgoing::REFUSED)
}

fn given_out(n: u32, es: u32, word: u64) -> Result<Outgoing, Refusal> {
    let format = Format::of(n, es)?;
    range::judge(format, word, 0)?;
    let (start, end) = range::tiles(format, word);
    let empty = matches!(range::kind(format, word), Kind::Empty);
    // "empty gives 0.0 twice, both open", whichever empty word it was.
    let shown = |tile, infinity| match empty {
        true => 0.0,
        false => end_float(format, tile, infinity),
    };
    Ok(Outgoing {
        low: shown(start, f64::NEG_INFINITY),
        high: shown(end, f64::INFINITY),
        low_open: start.open,
        high_open: end.open,
        empty,
    })
}

/// "unbounded ends are the float infinities", all others are exact.
fn end_float(format: &Format, tile: Tile, infinity: f64) -> f64 {
    let value = format.value(tile.posit);
    value.map_or(infinity, |value| float::of_value(format, value))
}
