//! The input of a measurement on ranges: pairs of words of one sign, of mixed sign and with zeros, the same in every run.

use crate::column::{mixed, LENGTH};

pub struct Ranges {
    pub n: u32,
    pub es: u32,
    pub kind: Kind,
    pub left: Vec<u64>,
    pub right: Vec<u64>,
}

#[derive(Clone, Copy)]
pub enum Kind {
    OneSign,
    MixedSign,
    WithZeros,
}

impl Kind {
    pub fn name(self) -> &'static str {
        match self {
            Kind::OneSign => "one sign",
            Kind::MixedSign => "mixed sign",
            Kind::WithZeros => "with zeros",
        }
    }
}

/// What ranges start at; no right one has 0 as a member, so that they divide.
#[derive(Clone, Copy)]
enum Start {
    Above,
    Below,
    Zero,
}

/// The three columns of a format.
pub fn of(n: u32, es: u32) -> [Ranges; 3] {
    [
        made(n, es, Kind::OneSign, Start::Above, Start::Above),
        made(n, es, Kind::MixedSign, Start::Below, Start::Above),
        made(n, es, Kind::WithZeros, Start::Zero, Start::Zero),
    ]
}

fn made(n: u32, es: u32, kind: Kind, left: Start, right: Start) -> Ranges {
    let rows = 0..LENGTH as u64;
    let words = |start, side| rows.clone().map(move |row| word(n, start, 2 * row + side));
    Ranges {
        n,
        es,
        kind,
        left: words(left, 0).collect(),
        right: words(right, 1).collect(),
    }
}

/// A word with random open marks; an end at 0 is open, so that its range divides.
fn word(n: u32, start: Start, seed: u64) -> u64 {
    let bits = mixed(seed);
    // Two posits above 0 that differ, the lower first.
    let positive = (1u64 << (n - 1)) - 2;
    let (a, b) = (1 + (bits >> 40) % positive, 1 + (bits >> 16) % positive);
    let (low, high) = (a.min(b), a.max(b) + 1);
    let (start, start_open) = match start {
        Start::Above => (low, bits & 1),
        Start::Below => ((1 << n) - low, bits & 1),
        Start::Zero => (0, 1),
    };
    ((2 * start + start_open) << (n + 1)) + 2 * high.min(positive + 1) + (bits >> 1 & 1)
}
