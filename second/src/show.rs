//! Ranges as text: brackets with values, patterns with words, and tiles read from text.

use crate::format::Format;
use crate::posit::{self, Decoded};
use crate::range::{self, Kind, Tile};

/// A posit's value as a whole number or a fraction in lowest terms.
pub fn value(format: &Format, pattern: u64) -> String {
    match posit::decode(format.n(), format.es(), pattern).value {
        Decoded::Zero => "0".to_string(),
        Decoded::Nar => "NaR".to_string(),
        Decoded::Finite {
            negative,
            scale,
            fraction,
        } => {
            // The fraction is odd, so no power of two can be cancelled.
            let sign = if negative { "-" } else { "" };
            let power = 1u128 << scale.unsigned_abs();
            match scale {
                0.. => format!("{sign}{}", u128::from(fraction) * power),
                _ => format!("{sign}{fraction}/{power}"),
            }
        }
    }
}

/// A range as an interval such as `[0,2)` or `(-inf,4]`.
pub fn brackets(format: &Format, word: u64) -> String {
    let (start, end) = range::tiles(format, word);
    match range::kind(format, word) {
        Kind::HoldsInfinity => "holds infinity".to_string(),
        Kind::Empty => "empty".to_string(),
        Kind::Real(_) => {
            let left = if start.open { '(' } else { '[' };
            let right = if end.open { ')' } else { ']' };
            let low = bound(format, start, "-inf");
            let high = bound(format, end, "+inf");
            format!("{left}{low},{high}{right}")
        }
    }
}

fn bound(format: &Format, tile: Tile, unbounded: &str) -> String {
    match tile.posit == format.nar() {
        true => unbounded.to_string(),
        false => value(format, tile.posit),
    }
}

/// A range as patterns such as `7f open to 80 open`.
pub fn patterns(format: &Format, word: u64) -> String {
    let (start, end) = range::tiles(format, word);
    format!("{} to {}", pattern(start), pattern(end))
}

fn pattern(tile: Tile) -> String {
    let mark = if tile.open { "open" } else { "closed" };
    format!("{:02x} {mark}", tile.posit)
}

/// A word from text such as `00 c 40 o`; nothing if the text has another form.
pub fn word_of(format: &Format, text: &str) -> Option<u64> {
    let words: Vec<&str> = text.split_whitespace().collect();
    match words[..] {
        [a, b, c, d] => Some(range::word(format, tile(a, b)?, tile(c, d)?)),
        _ => None,
    }
}

fn tile(posit: &str, mark: &str) -> Option<Tile> {
    let posit = u64::from_str_radix(posit, 16).ok()?;
    match mark {
        "c" => Some(Tile { posit, open: false }),
        "o" => Some(Tile { posit, open: true }),
        _ => None,
    }
}
