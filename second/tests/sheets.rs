//! Sheets: rows, limits of inputs and steps, refusals with rows as places, and lent memory.

mod common;

use common::{done, refused, OUTSIDE};
use second::sheet;

/// What lent memory holds before a call.
const OLD: u64 = 0xdead_beef_dead_beef;

fn word(text: &str) -> u64 {
    common::word(8, text)
}

/// A refused sheet: number, place, count 0, and a lent column as it was.
fn check_refused(inputs: &[u64], steps: &[u8], size: usize, hit: (u32, u64)) {
    let mut lent = vec![OLD; size];
    let answer = sheet::work(8, 2, inputs, steps, &mut lent);
    assert_eq!(answer, refused(hit.0, hit.1, 0));
    assert!(lent.iter().all(|word| *word == OLD));
}

#[test]
fn rows_of_the_example() {
    let inputs = ["40 c 48 c", "4c c 4c c"].map(word);
    let mut lent = [OLD; 5];
    let answer = sheet::work(8, 2, &inputs, &[0, 0, 0, 3, 0, 1], &mut lent);
    assert_eq!(answer, done(4));
    let rows = [
        inputs[0],
        inputs[1],
        word("48 c 50 c"),
        word("32 o 3b o"),
        OLD,
    ];
    assert_eq!(lent, rows);
}

#[test]
fn steps_use_computed_rows() {
    let inputs = ["00 c 40 o", "40 o 48 o"].map(word);
    let steps = [2, 0, 1, 0, 2, 1, 1, 3, 3];
    let mut lent = [OLD; 5];
    assert_eq!(sheet::work(8, 2, &inputs, &steps, &mut lent), done(5));
    assert_eq!(lent[2], word("00 c 48 o"));
    assert_eq!(lent[3], word("40 o 50 o"));
    assert_eq!(lent[4], word("b4 o 4c o"));
    // A product that holds 0 must not be divided by: the slip that cost a specimen.
    check_refused(&inputs, &[2, 0, 1, 3, 1, 2], 4, (5, 3));
}

#[test]
fn empty_sheets_and_single_parts() {
    let mut lent = [OLD; 2];
    assert_eq!(sheet::work(8, 2, &[], &[], &mut lent), done(0));
    assert_eq!(sheet::work(8, 2, &[], &[], &mut []), done(0));
    assert_eq!(lent, [OLD; 2]);
    let one = word("40 c 40 c");
    assert_eq!(sheet::work(8, 2, &[one], &[], &mut lent), done(1));
    assert_eq!(lent, [one, OLD]);
    check_refused(&[], &[0, 0, 0], 4, (8, 0));
}

#[test]
fn empty_inputs_are_kept_as_given() {
    let inputs = ["40 o 40 o", "81 o 81 o", "40 c 48 c"].map(word);
    let steps = [0, 0, 2, 3, 2, 1, 2, 3, 4];
    let mut lent = [OLD; 6];
    assert_eq!(sheet::work(8, 2, &inputs, &steps, &mut lent), done(6));
    assert_eq!(lent[..3], inputs);
    assert_eq!(lent[3..], [word("00 o 00 o"); 3]);
}

#[test]
fn limits_of_inputs_and_steps() {
    let one = word("40 c 40 c");
    let steps = [2, 0, 0].repeat(65);
    let inputs = [one; 33];
    let mut lent = [OLD; 100];
    let answer = sheet::work(8, 2, &inputs[..32], &steps[..192], &mut lent);
    assert_eq!(answer, done(96));
    assert!(lent[..96].iter().all(|word| *word == one));
    assert_eq!(lent[96..], [OLD; 4]);
    check_refused(&inputs, &steps[..3], 100, (7, 0));
    check_refused(&inputs[..1], &steps, 100, (7, 0));
    for bytes in [1, 2, 4, 5, 191, 193, 194] {
        check_refused(&inputs[..1], &steps[..bytes], 100, (7, 0));
    }
    check_refused(&inputs[..32], &steps[..192], 95, (9, 0));
    check_refused(&inputs[..1], &[], 0, (9, 0));
}

#[test]
fn refusals_in_their_order() {
    let (large, infinite) = (1u64 << 18, word("80 c 80 c"));
    let (one, zero) = (word("40 c 40 c"), word("00 c 00 c"));
    for (n, es) in OUTSIDE {
        let mut lent = [OLD; 1];
        let answer = sheet::work(n, es, &[large; 33], &[9], &mut lent);
        assert_eq!((answer, lent), (refused(1, 0, 0), [OLD]));
    }
    check_refused(&[large; 33], &[9], 1, (7, 0));
    check_refused(&[large; 2], &[9, 9, 9], 2, (9, 0));
    // Inputs that no step uses are judged too, and before any step.
    check_refused(&[one, large, infinite], &[9, 9, 9], 9, (3, 1));
    check_refused(&[one, infinite, large], &[9, 9, 9], 9, (4, 1));
    check_refused(&[one, zero, large], &[3, 0, 1], 9, (3, 2));
    // In a step: 2, then 8 for either row, then 5.
    check_refused(&[one, zero], &[4, 9, 9], 9, (2, 2));
    check_refused(&[one, zero], &[255, 0, 1], 9, (2, 2));
    check_refused(&[one, zero], &[3, 2, 1], 9, (8, 2));
    check_refused(&[one, zero], &[3, 0, 2], 9, (8, 2));
    check_refused(&[one, zero], &[3, 255, 1], 9, (8, 2));
    check_refused(&[one, zero], &[3, 0, 1], 9, (5, 2));
    // Steps in order: an early 5 comes before a late 2, an early 8 before a late 5.
    check_refused(&[one, zero], &[0, 0, 1, 3, 0, 1, 4, 0, 0], 9, (5, 3));
    check_refused(&[one, zero], &[0, 0, 3, 3, 0, 1], 9, (8, 2));
    check_refused(&[one, zero], &[0, 0, 2], 9, (8, 2));
    check_refused(
        &[one, zero],
        &[0, 0, 0, 0, 2, 2, 0, 3, 3, 7, 0, 0],
        9,
        (2, 5),
    );
}

/// Pick members of the inputs, work the sheet exactly, and find every row's value in its range.
#[test]
fn exact_values_lie_in_their_rows() {
    use second::format::Format;
    use second::range::{kind, Kind};
    use second::ratio::Ratio;
    let format = Format::of(8, 2).unwrap();
    let inputs = ["40 c 48 c", "48 o 4c c"].map(word);
    let steps = [0u8, 0, 1, 3, 0, 1, 2, 2, 3, 1, 4, 0];
    let mut lent = [OLD; 6];
    assert_eq!(sheet::work(8, 2, &inputs, &steps, &mut lent), done(6));
    for (a, b) in [(8, 17), (12, 20), (16, 24), (9, 23)] {
        let mut rows = vec![Ratio::scaled(a, -3), Ratio::scaled(b, -3)];
        for step in steps.chunks(3) {
            let (x, y) = (&rows[step[1] as usize], &rows[step[2] as usize]);
            rows.push(match step[0] {
                0 => x.plus(y),
                1 => x.minus(y),
                2 => x.times(y),
                _ => x.times(&y.inverse().unwrap()),
            });
        }
        for (row, word) in rows.iter().zip(lent) {
            match kind(format, word) {
                Kind::Real(span) => assert!(span.holds(row)),
                _ => panic!("every row here has members"),
            }
        }
    }
}
