//! Ranges: kinds of words, negation, empty operands, saturation-free ends, and every refusal.

mod common;

use common::{done, formats, refused, OUTSIDE};
use second::range;

/// The word of four tile words at n = 8.
fn word(text: &str) -> u64 {
    common::word(8, text)
}

#[test]
fn kinds_of_words() {
    let infinite = [
        "80 c 40 c",
        "40 c 80 c",
        "80 c 80 c",
        "80 c 80 o",
        "80 o 80 c",
        "80 c 40 o",
        "40 o 80 c",
        "40 c 40 o",
        "40 o 40 c",
        "00 c 00 o",
        "48 c 40 c",
        "48 o 40 o",
        "40 c c0 c",
        "00 c ff c",
    ];
    for text in infinite {
        assert_eq!(range::negate(8, 2, word(text)), refused(4, 0, 0), "{text}");
    }
    let real = [
        ("40 c 48 o", "b8 o c0 c"),
        ("50 c 80 o", "80 o b0 c"),
        ("80 o 50 o", "b0 o 80 o"),
        ("80 o 80 o", "80 o 80 o"),
        ("40 c 40 c", "c0 c c0 c"),
        ("00 c 00 c", "00 c 00 c"),
        ("c0 o 40 c", "c0 c 40 o"),
        ("40 o 40 o", "00 o 00 o"),
        ("c0 o c0 o", "00 o 00 o"),
        ("00 o 00 o", "00 o 00 o"),
        ("7f o 80 o", "80 o 81 o"),
        ("81 c 7f c", "81 c 7f c"),
    ];
    for (text, negated) in real {
        assert_eq!(range::negate(8, 2, word(text)), done(word(negated)));
    }
}

#[test]
fn empty_operands_give_the_canonical_empty_word() {
    let empties = ["00 o 00 o", "40 o 40 o", "81 o 81 o"].map(word);
    let others = ["40 c 48 c", "80 o 80 o", "00 o 7f c"].map(word);
    for empty in empties {
        for other in others.into_iter().chain(empties) {
            for op in 0..4 {
                let answer = done(word("00 o 00 o"));
                assert_eq!(range::operate(8, 2, op, other, empty), answer);
                let zero = op == 3 && other == word("80 o 80 o");
                let answer = if zero { refused(5, 1, 0) } else { answer };
                assert_eq!(range::operate(8, 2, op, empty, other), answer);
            }
        }
    }
}

#[test]
fn ends_never_saturate() {
    let cases = [
        (0, "7f c 7f c", "01 c 01 c", "7f o 80 o"),
        (1, "81 c 81 c", "01 c 01 c", "80 o 81 o"),
        (2, "7f c 7f c", "7f c 7f c", "7f o 80 o"),
        (2, "7f c 7f c", "81 c 81 c", "80 o 81 o"),
        (2, "01 c 01 c", "ff c ff c", "ff o 00 o"),
        (3, "01 c 01 c", "7f c 7f c", "00 o 01 o"),
        (3, "40 c 40 c", "40 c 80 o", "00 o 40 c"),
        (3, "40 c 40 c", "80 o 80 o", ""),
        (0, "80 o 40 c", "40 c 80 o", "80 o 80 o"),
        (2, "00 o 40 c", "40 c 80 o", "00 o 80 o"),
        (2, "00 c 40 c", "40 o 80 o", "00 c 80 o"),
        (3, "c0 c 40 c", "00 o 40 c", "80 o 80 o"),
        (3, "00 c 00 c", "00 o 40 c", "00 c 00 c"),
        (3, "00 c 40 c", "80 o 00 o", "80 o 00 c"),
        (3, "00 o 40 c", "40 o 80 o", "00 o 40 o"),
    ];
    for (op, left, right, text) in cases {
        let answer = match text {
            "" => refused(5, 1, 0),
            _ => done(word(text)),
        };
        let (left, right) = (word(left), word(right));
        assert_eq!(range::operate(8, 2, op, left, right), answer, "{text}");
    }
}

#[test]
fn comparisons() {
    let (empty, other) = (word("40 o 40 o"), word("00 c 40 c"));
    assert_eq!(range::inside(8, 2, empty, other), done(true));
    assert_eq!(range::inside(8, 2, other, empty), done(false));
    assert_eq!(range::inside(8, 2, empty, empty), done(true));
    assert_eq!(range::below(8, 2, empty, other), done(true));
    assert_eq!(range::below(8, 2, other, empty), done(true));
    assert_eq!(range::meets(8, 2, empty, other), done(false));
    assert_eq!(range::meets(8, 2, other, empty), done(false));
    assert_eq!(range::meets(8, 2, empty, empty), done(false));
    let (left, right) = (word("80 o 40 c"), word("40 c 80 o"));
    assert_eq!(range::meets(8, 2, left, right), done(true));
    assert_eq!(range::below(8, 2, left, right), done(false));
    let right = word("40 o 80 o");
    assert_eq!(range::meets(8, 2, left, right), done(false));
    assert_eq!(range::below(8, 2, left, right), done(true));
    let all = word("80 o 80 o");
    assert_eq!(range::inside(8, 2, left, all), done(true));
    assert_eq!(range::inside(8, 2, all, left), done(false));
    assert_eq!(range::below(8, 2, all, all), done(false));
}

#[test]
fn refusal_1_comes_first() {
    for (n, es) in OUTSIDE {
        let big = u64::MAX;
        assert_eq!(range::negate(n, es, big), refused(1, 0, 0));
        assert_eq!(range::operate(n, es, 9, big, big), refused(1, 0, 0));
        assert_eq!(range::inside(n, es, big, big), refused(1, 0, false));
        assert_eq!(range::meets(n, es, big, big), refused(1, 0, false));
        assert_eq!(range::below(n, es, big, big), refused(1, 0, false));
    }
}

/// The operands of every refusal with what is hit first: left, right, number, place.
fn refusals(n: u32) -> Vec<(u64, u64, u32, u64)> {
    let nar = 1u64 << (n - 1);
    let infinite = common::word(n, &format!("{nar:x} c 0 c"));
    let (large, all) = (
        1u64 << (2 * n + 2),
        common::word(n, &format!("{nar:x} o {nar:x} o")),
    );
    vec![
        (large, large, 3, 0),
        (large, infinite, 3, 0),
        (u64::MAX, all, 3, 0),
        (infinite, large, 4, 0),
        (infinite, infinite, 4, 0),
        (infinite, all, 4, 0),
        (all, large, 3, 1),
        (all, large + 1, 3, 1),
        (all, 1 << 63, 3, 1),
        (all, infinite, 4, 1),
    ]
}

#[test]
fn refusals_2_to_5_with_places() {
    for (n, es) in formats() {
        for (left, right, number, place) in refusals(n) {
            for op in 0..4 {
                let answer = range::operate(n, es, op, left, right);
                assert_eq!(answer, refused(number, place, 0));
            }
            for op in [4, 255, 256, u32::MAX] {
                let answer = range::operate(n, es, op, left, right);
                assert_eq!(answer, refused(2, 0, 0));
            }
            let no = refused(number, place, false);
            assert_eq!(range::inside(n, es, left, right), no);
            assert_eq!(range::meets(n, es, left, right), no);
            assert_eq!(range::below(n, es, left, right), no);
            if place == 0 {
                assert_eq!(range::negate(n, es, left), refused(number, 0, 0));
            }
        }
        let nar = 1u64 << (n - 1);
        for divisor in ["0 c 0 c", "0 c 1 o", "80 o 80 o"] {
            let divisor = divisor.replace("80", &format!("{nar:x}"));
            let divisor = common::word(n, &divisor);
            for left in ["1 c 1 c", "1 o 1 o", "0 c 0 c"] {
                let left = common::word(n, left);
                assert_eq!(range::divide(n, es, left, divisor), refused(5, 1, 0));
                assert_eq!(range::multiply(n, es, left, divisor).number, 0);
            }
        }
    }
}
