//! Shared by the tests: words from tiles, all formats, expected answers and number sequences.
#![allow(dead_code)]

use second::refusal::Answer;

/// A range word from text such as `00 c 40 o`, put together here and not by the program.
pub fn word(n: u32, text: &str) -> u64 {
    let words: Vec<&str> = text.split(' ').collect();
    let tile = |i: usize| {
        let posit = u64::from_str_radix(words[i], 16).unwrap();
        2 * posit + u64::from(words[i + 1] == "o")
    };
    tile(0) * (2 << n) + tile(2)
}

/// Every width with every exponent size.
pub fn formats() -> impl Iterator<Item = (u32, u32)> {
    (3..=16).flat_map(|n| (0..=2).map(move |es| (n, es)))
}

/// Format numbers that are refused 1.
pub const OUTSIDE: [(u32, u32); 8] = [
    (2, 0),
    (17, 0),
    (0, 2),
    (3, 3),
    (16, 3),
    (u32::MAX, 1),
    (8, u32::MAX),
    (259, 2),
];

pub fn done<T>(value: T) -> Answer<T> {
    refused(0, 0, value)
}

/// An answer with number, place and value.
pub fn refused<T>(number: u32, place: u64, value: T) -> Answer<T> {
    Answer {
        number,
        place,
        value,
    }
}

/// A sequence of numbers that looks random and is the same each time.
pub struct Sequence(pub u64);

impl Sequence {
    pub fn next(&mut self) -> u64 {
        self.0 = self.0.wrapping_add(0x9e37_79b9_7f4a_7c15);
        let once = (self.0 ^ (self.0 >> 30)).wrapping_mul(0xbf58_476d_1ce4_e5b9);
        let twice = (once ^ (once >> 27)).wrapping_mul(0x94d0_49bb_1331_11eb);
        twice ^ (twice >> 31)
    }
}
