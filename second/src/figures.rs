//! Bench figures A to L: worked with this program and compared with document 01's table.

use crate::format::Format;
use crate::{posit, range, show};

/// How a case is worked and how its answer is written.
enum Case {
    /// An operation number on two posits, written as a pattern.
    Posit(u32, u64, u64),
    /// An operation number on two ranges, written with values.
    Values(u32, &'static str, &'static str),
    /// An operation number on two ranges, written with patterns.
    Patterns(u32, &'static str, &'static str),
}

/// Letter, case as the table writes it, how to work it, and the table's answer.
type Figure = (char, &'static str, Case, &'static str);

const FIGURES: [Figure; 12] = [
    ('A', "40 + 40", Case::Posit(0, 0x40, 0x40), "48"),
    ('B', "40 / 4c", Case::Posit(3, 0x40, 0x4c), "33"),
    ('C', "40 + 20 (tie)", Case::Posit(0, 0x40, 0x20), "40"),
    ('D', "41 + 20 (tie)", Case::Posit(0, 0x41, 0x20), "42"),
    ('E', "7e × 50 (2^22, tie)", Case::Posit(2, 0x7e, 0x50), "7e"),
    ('F', "7e × 58 (2^23)", Case::Posit(2, 0x7e, 0x58), "7f"),
    ('G', "01 × 01", Case::Posit(2, 0x01, 0x01), "01"),
    ('H', "40 / 00", Case::Posit(3, 0x40, 0x00), "80"),
    (
        'I',
        "[0,1) × (1,2)",
        Case::Values(2, "00 c 40 o", "40 o 48 o"),
        "[0,2)",
    ),
    (
        'J',
        "[-1,1) × [-1,1)",
        Case::Values(2, "c0 c 40 o", "c0 c 40 o"),
        "(-1,1]",
    ),
    (
        'K',
        "[7f,7f] + [40,40]",
        Case::Patterns(0, "7f c 7f c", "40 c 40 c"),
        "7f open to 80 open",
    ),
    (
        'L',
        "[40,40] / (00,40]",
        Case::Patterns(3, "40 c 40 c", "00 o 40 c"),
        "40 closed to 80 open",
    ),
];

/// A figure as worked here, and whether the table has the same answer.
pub struct Worked {
    pub letter: char,
    pub case: &'static str,
    pub answer: String,
    pub agrees: bool,
}

/// All figures in the table's order, in its format n = 8 and es = 2.
pub fn worked() -> Vec<Worked> {
    let figures = FIGURES.iter();
    let worked = figures.map(|(letter, case, work, table)| {
        let answer = answer(work).unwrap_or_default();
        let agrees = answer == *table;
        Worked {
            letter: *letter,
            case,
            answer,
            agrees,
        }
    });
    worked.collect()
}

/// The answer as text; a refused case has none and so never agrees.
fn answer(case: &Case) -> Option<String> {
    let format = Format::of(8, 2).ok()?;
    let ranges = |op: u32, left: &str, right: &str| {
        let (left, right) = (show::word_of(format, left)?, show::word_of(format, right)?);
        let answer = range::operate(8, 2, op, left, right);
        (answer.number == 0).then_some(answer.value)
    };
    match case {
        Case::Posit(op, left, right) => {
            let answer = posit::operate(8, 2, *op, *left, *right);
            (answer.number == 0).then(|| format!("{:02x}", answer.value))
        }
        Case::Values(op, a, b) => ranges(*op, a, b).map(|word| show::brackets(format, word)),
        Case::Patterns(op, a, b) => ranges(*op, a, b).map(|word| show::patterns(format, word)),
    }
}
