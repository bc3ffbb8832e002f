//! Columns: lengths, the named row, places of refusals, and lent memory that keeps its content.

mod common;

use common::{done, refused, OUTSIDE};
use second::{column, range};

/// What lent memory holds before a call.
const OLD: u64 = 0xdead_beef_dead_beef;

fn word(text: &str) -> u64 {
    common::word(8, text)
}

/// A refused call: number, place, count 0, and a lent column as it was.
fn check_refused(op: u32, left: &[u64], right: &[u64], row: u64, size: usize, hit: (u32, u64)) {
    let mut lent = vec![OLD; size];
    let answer = column::combine(8, 2, op, left, right, row, &mut lent);
    assert_eq!(answer, refused(hit.0, hit.1, 0));
    assert!(lent.iter().all(|word| *word == OLD));
}

#[test]
fn pairs_are_combined_from_the_named_row() {
    let left = ["40 c 48 c", "00 c 40 o", "40 o 40 o"].map(word);
    let right = ["4c c 4c c", "40 o 48 o", "40 c 40 c"].map(word);
    for op in 0..4 {
        for row in 0..=2 {
            let mut lent = [OLD; 5];
            let answer = column::combine(8, 2, op, &left, &right, row as u64, &mut lent);
            assert_eq!(answer, done(3));
            for (place, kept) in lent.iter().enumerate() {
                let expected = match place.checked_sub(row) {
                    Some(pair) if pair < 3 => {
                        range::operate(8, 2, op, left[pair], right[pair]).value
                    }
                    _ => OLD,
                };
                assert_eq!(*kept, expected);
            }
        }
    }
}

#[test]
fn lengths_from_0_to_4096() {
    let (one, two) = (word("40 c 40 c"), word("48 c 48 c"));
    for length in [0, 1, 4095, 4096] {
        let left = vec![one; length];
        let mut lent = vec![OLD; 5000];
        let answer = column::combine(8, 2, 0, &left, &left, 7, &mut lent);
        assert_eq!(answer, done(length as u64));
        assert!(lent[..7].iter().all(|word| *word == OLD));
        assert!(lent[7..7 + length].iter().all(|word| *word == two));
        assert!(lent[7 + length..].iter().all(|word| *word == OLD));
    }
    let long = vec![one; 4097];
    check_refused(0, &long, &long, 0, 5000, (7, 0));
    check_refused(0, &long[..4096], &long, 0, 5000, (7, 0));
    check_refused(0, &long[..1], &long[..2], 0, 5000, (7, 0));
    check_refused(0, &[], &long[..1], 0, 5000, (7, 0));
}

#[test]
fn the_named_row_at_and_past_the_end() {
    let one = [word("40 c 40 c")];
    let mut lent = [OLD; 3];
    assert_eq!(column::combine(8, 2, 0, &[], &[], 3, &mut lent), done(0));
    assert_eq!(column::combine(8, 2, 0, &[], &[], 0, &mut []), done(0));
    assert_eq!(lent, [OLD; 3]);
    assert_eq!(column::combine(8, 2, 0, &one, &one, 2, &mut lent), done(1));
    assert_eq!(lent, [OLD, OLD, word("48 c 48 c")]);
    for row in [4, 5, 1 << 32, u64::MAX - 1, u64::MAX] {
        check_refused(0, &[], &[], row, 3, (9, 0));
        check_refused(0, &one, &one, row, 3, (9, 0));
    }
    check_refused(0, &one, &one, 3, 3, (9, 0));
    check_refused(0, &one, &one, 0, 0, (9, 0));
}

#[test]
fn refusals_in_their_order() {
    let (large, infinite) = (u64::MAX, word("80 c 80 c"));
    let (one, zero) = (word("40 c 40 c"), word("00 c 00 c"));
    for (n, es) in OUTSIDE {
        let mut lent = [OLD; 2];
        let answer = column::combine(n, es, 9, &[large], &[], 9, &mut lent);
        assert_eq!(answer, refused(1, 0, 0));
        assert_eq!(lent, [OLD; 2]);
    }
    check_refused(4, &[large], &[], 9, 4, (2, 0));
    check_refused(u32::MAX, &[], &[], 0, 0, (2, 0));
    check_refused(3, &[large], &[], 9, 4, (7, 0));
    check_refused(3, &[large], &[large], 9, 4, (9, 0));
    check_refused(3, &[one, large], &[one, infinite], 0, 4, (3, 1));
    check_refused(3, &[one, infinite], &[one, large], 0, 4, (4, 1));
    check_refused(3, &[one, one], &[one, large], 0, 4, (3, 1));
    check_refused(3, &[one, one, one], &[one, one, infinite], 0, 4, (4, 2));
    check_refused(3, &[one, one, large], &[one, zero, large], 0, 4, (5, 1));
    check_refused(3, &[one], &[zero], 1, 4, (5, 0));
    check_refused(3, &[word("40 o 40 o")], &[zero], 1, 4, (5, 0));
}
