//! Document 01's bench figures, its further cases and the published range vectors, worked by the proved calls and held to the
//! answers that stand written there.

use crate::tally::{Difference, Outcome, Tally};
use jorumrain::raw::range::{self, RangeAnswer};
use std::fmt::Debug;

const N: u32 = 8;
const ES: u32 = 2;

const ADD: u8 = 0;
const SUBTRACT: u8 = 1;
const MULTIPLY: u8 = 2;
const DIVIDE: u8 = 3;

/// The published vectors, a line each; the fields are described in the file's first line.
const VECTORS: &str = include_str!("../../../second/tests/data/ranges-001-002.txt");

/// Operation, operands and answer: A to H, then the further cases on posits.
const POSITS: [(u8, u32, u32, u32); 10] = [
    (ADD, 0x40, 0x40, 0x48),
    (DIVIDE, 0x40, 0x4c, 0x33),
    (ADD, 0x40, 0x20, 0x40),
    (ADD, 0x41, 0x20, 0x42),
    (MULTIPLY, 0x7e, 0x50, 0x7e),
    (MULTIPLY, 0x7e, 0x58, 0x7f),
    (MULTIPLY, 0x01, 0x01, 0x01),
    (DIVIDE, 0x40, 0x00, 0x80),
    (MULTIPLY, 0xc0, 0x48, 0xb8),
    (MULTIPLY, 0x7e, 0x48, 0x7e),
];

/// The same for ranges, by their tiles in the vectors' form: I to L, the further cases, and a row minus itself.
const RANGES: [(u8, &str, &str, &str); 7] = [
    (MULTIPLY, "00 c 40 o", "40 o 48 o", "00 c 48 o"),
    (MULTIPLY, "c0 c 40 o", "c0 c 40 o", "c0 o 40 c"),
    (ADD, "7f c 7f c", "40 c 40 c", "7f o 80 o"),
    (DIVIDE, "40 c 40 c", "00 o 40 c", "40 c 80 o"),
    (MULTIPLY, "01 c 01 c", "01 c 01 c", "00 o 01 o"),
    (MULTIPLY, "00 c 00 c", "80 o 80 o", "00 c 00 c"),
    (SUBTRACT, "40 c 48 c", "40 c 48 c", "c0 c 40 c"),
];

pub fn every() -> Outcome {
    let mut tally = Tally::default();
    for (op, left, right, posit) in POSITS {
        let answer = jorumrain::raw::operate(N, ES, op, left, right);
        let expected = (0, 0, posit);
        let got = (answer.number, answer.place, answer.posit);
        hold(&mut tally, "operate", &(op, left, right), got, expected)?;
    }
    for (op, left, right, answer) in RANGES {
        let expected = done(word(N, answer)?);
        operate(&mut tally, N, ES, op, left, right, expected)?;
    }
    let (one, zero_to_one) = (word(N, "40 c 40 c")?, word(N, "00 c 40 c")?);
    let refused = range::operate(N, ES, DIVIDE, one, zero_to_one);
    hold(
        &mut tally,
        "divide",
        &"[1,1]/[0,1]",
        tuple(refused),
        (5, 1, 0),
    )?;
    for (left, yes) in [("40 o 48 o", true), ("40 c 48 c", false)] {
        let reply = range::below(N, ES, word(N, left)?, word(N, "48 c 4c c")?);
        hold(
            &mut tally,
            "below",
            &left,
            (reply.number, reply.place, u64::from(reply.yes)),
            (0, 0, u64::from(yes)),
        )?;
    }
    Ok(tally)
}

/// The vectors; those that wait for a later division are refused 5 at place 1 today.
pub fn vectors() -> Outcome {
    let mut tally = Tally::default();
    for line in VECTORS.lines().filter(|line| !line.starts_with('#')) {
        let fields: Vec<&str> = line.split('|').map(str::trim).collect();
        let [_, format, _, op, _, _, left, right, answer, .., later] = fields[..] else {
            return Err(Difference(format!("no vector: {line}")));
        };
        let (n, es) = format_of(format)?;
        let op = match op {
            "+" => ADD,
            "-" => SUBTRACT,
            "*" => MULTIPLY,
            _ => DIVIDE,
        };
        let expected = match later {
            "T3" => (5, 1, 0),
            _ => done(word(n, answer)?),
        };
        operate(&mut tally, n, es, op, left, right, expected)?;
    }
    Ok(tally)
}

fn operate(
    tally: &mut Tally,
    n: u32,
    es: u32,
    op: u8,
    left: &str,
    right: &str,
    expected: (u32, u32, u64),
) -> Result<(), Difference> {
    let answer = range::operate(n, es, op, word(n, left)?, word(n, right)?);
    hold(
        tally,
        "operate",
        &(n, es, op, left, right),
        tuple(answer),
        expected,
    )
}

fn tuple(answer: RangeAnswer) -> (u32, u32, u64) {
    (answer.number, answer.place, answer.word)
}

fn done(word: u64) -> (u32, u32, u64) {
    (0, 0, word)
}

fn hold<T: PartialEq + Debug>(
    tally: &mut Tally,
    call: &'static str,
    arguments: &dyn Debug,
    got: (u32, u32, T),
    expected: (u32, u32, T),
) -> Result<(), Difference> {
    if got != expected {
        return Err(Difference(format!(
            "{call} {arguments:?}: {got:?}, not {expected:?}"
        )));
    }
    tally.count(call, (got.0, got.1));
    Ok(())
}

/// "V8,2" as 8 and 2.
fn format_of(text: &str) -> Result<(u32, u32), Difference> {
    let numbers = text.trim_start_matches('V').split_once(',');
    let parsed = numbers.and_then(|(n, es)| Some((n.parse().ok()?, es.parse().ok()?)));
    parsed.ok_or_else(|| Difference(format!("no format: {text}")))
}

/// A range by its ends, as "40 c 48 o": start posit, closed or open, end posit, closed or open.
fn word(n: u32, ends: &str) -> Result<u64, Difference> {
    let parts: Vec<&str> = ends.split(' ').collect();
    let [start, start_mark, end, end_mark] = parts[..] else {
        return Err(Difference(format!("no range: {ends}")));
    };
    let start = tile(start, start_mark);
    let end = tile(end, end_mark);
    let words = start.zip(end).map(|(start, end)| (start << (n + 1)) + end);
    words.ok_or_else(|| Difference(format!("no range: {ends}")))
}

/// "A tile is 2P + u: a posit P with u = 1 for an open end."
fn tile(posit: &str, mark: &str) -> Option<u64> {
    let posit = u64::from_str_radix(posit, 16).ok()?;
    Some(2 * posit + u64::from(mark == "o"))
}
