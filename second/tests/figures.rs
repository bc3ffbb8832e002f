//! Bench figures, the further cases, and what crews and programs get wrong, at n = 8 and es = 2.

mod common;

use common::{done, refused};
use second::{figures, posit, range, sheet};

fn word(text: &str) -> u64 {
    common::word(8, text)
}

#[test]
fn figures_a_to_l_agree_with_the_table() {
    let worked = figures::worked();
    let letters: String = worked.iter().map(|figure| figure.letter).collect();
    assert_eq!(letters, "ABCDEFGHIJKL");
    for figure in worked {
        assert!(figure.agrees, "{} gives {}", figure.letter, figure.answer);
    }
}

#[test]
fn posit_figures_as_calls() {
    assert_eq!(posit::add(8, 2, 0x40, 0x40), done(0x48));
    assert_eq!(posit::divide(8, 2, 0x40, 0x4c), done(0x33));
    assert_eq!(posit::add(8, 2, 0x40, 0x20), done(0x40));
    assert_eq!(posit::add(8, 2, 0x41, 0x20), done(0x42));
    assert_eq!(posit::multiply(8, 2, 0x7e, 0x50), done(0x7e));
    assert_eq!(posit::multiply(8, 2, 0x7e, 0x58), done(0x7f));
    assert_eq!(posit::multiply(8, 2, 0x01, 0x01), done(0x01));
    assert_eq!(posit::divide(8, 2, 0x40, 0x00), done(0x80));
}

#[test]
fn range_figures_as_calls() {
    let (a, b) = (word("00 c 40 o"), word("40 o 48 o"));
    assert_eq!(range::multiply(8, 2, a, b), done(word("00 c 48 o")));
    assert_eq!(range::multiply(8, 2, b, a), done(word("00 c 48 o")));
    let a = word("c0 c 40 o");
    assert_eq!(range::multiply(8, 2, a, a), done(word("c0 o 40 c")));
    let (a, b) = (word("7f c 7f c"), word("40 c 40 c"));
    assert_eq!(range::add(8, 2, a, b), done(word("7f o 80 o")));
    let (a, b) = (word("40 c 40 c"), word("00 o 40 c"));
    assert_eq!(range::divide(8, 2, a, b), done(word("40 c 80 o")));
}

#[test]
fn further_cases() {
    assert_eq!(posit::multiply(8, 2, 0xc0, 0x48), done(0xb8));
    assert_eq!(posit::multiply(8, 2, 0x7e, 0x48), done(0x7e));
    let least = word("01 c 01 c");
    let squared = range::multiply(8, 2, least, least);
    assert_eq!(squared, done(word("00 o 01 o")));
    let (zero, all) = (word("00 c 00 c"), word("80 o 80 o"));
    assert_eq!(range::multiply(8, 2, zero, all), done(zero));
    assert_eq!(range::multiply(8, 2, all, zero), done(zero));
    let (one, unit) = (word("40 c 40 c"), word("00 c 40 c"));
    assert_eq!(range::divide(8, 2, one, unit), refused(5, 1, 0));
    let above = word("48 c 4c c");
    assert_eq!(range::below(8, 2, word("40 o 48 o"), above), done(true));
    assert_eq!(range::below(8, 2, word("40 c 48 c"), above), done(false));
}

/// The wrong answer of each of the five mistakes is not given.
#[test]
fn the_five_mistakes() {
    assert_ne!(posit::multiply(8, 2, 0x7e, 0x58).value, 0x7e);
    let open_zero = word("00 o 48 o");
    let product = range::multiply(8, 2, word("00 c 40 o"), word("40 o 48 o"));
    assert_ne!(product.value, open_zero);
    let unit = word("c0 c 40 o");
    let squared = range::multiply(8, 2, unit, unit);
    assert_ne!(squared.value, word("c0 o 40 o"));
    let saturated = word("7f c 7f c");
    let sum = range::add(8, 2, saturated, word("40 c 40 c"));
    assert_ne!(sum.value, saturated);
    let row = word("40 c 48 c");
    let difference = range::subtract(8, 2, row, row);
    assert_eq!(difference, done(word("c0 c 40 c")));
    let mut lent = [7; 3];
    assert_eq!(sheet::work(8, 2, &[row], &[1, 0, 0], &mut lent), done(2));
    assert_eq!(lent, [row, word("c0 c 40 c"), 7]);
}
