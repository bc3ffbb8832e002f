//! Every call once with an answer and once refused, and lent memory that a refused call keeps.

use jorumrain::posit::{self, Decoded};
use jorumrain::range::{self, Outgoing, Reading};
use jorumrain::refusal::*;
use jorumrain::sheet::{self, Step};
use jorumrain::Operation::{Add, Divide, Multiply, Subtract};
use jorumrain::{Operation, Refusal};
use std::cmp::Ordering;
use std::fmt::Debug;

const N: u32 = 8;
const ES: u32 = 2;

/// Patterns and words of the format N, ES.
const ONE: u32 = 0x40;
const TWO: u32 = 0x48;
const THREE: u32 = 0x4c;
const NAR: u32 = 0x80;
const NO_POSIT: u32 = 1 << N;
const ONE_TO_TWO: u64 = 0x10090;
const THREE_ONLY: u64 = 0x13098;
const ZERO_TO_ONE: u64 = 0x80;
const EMPTY: u64 = 0x201;
const WITH_INFINITY: u64 = 0x100 << 9;
const NO_WORD: u64 = 1 << (2 * N + 2);

/// What lent memory holds before a call.
const OLD: u64 = 0xdead_beef_dead_beef;

fn refused<T: Debug + PartialEq>(got: Result<T, Refusal>, number: u32, place: u32) {
    assert_eq!(got, Err(Refusal { number, place }));
}

#[test]
fn posits_are_decoded_and_encoded() {
    let minus_three = Decoded::Finite {
        negative: true,
        scale: 0,
        fraction: 3,
    };
    assert_eq!(posit::decode(N, ES, 0xb4), Ok(minus_three));
    assert_eq!(posit::decode(N, ES, 0), Ok(Decoded::Zero));
    assert_eq!(posit::decode(N, ES, NAR), Ok(Decoded::Nar));
    refused(posit::decode(N, ES, NO_POSIT), TOO_LARGE, LEFT);
    assert_eq!(posit::encode(N, ES, minus_three), Ok(0xb4));
    assert_eq!(posit::encode(N, ES, Decoded::Zero), Ok(0));
    assert_eq!(posit::encode(N, ES, Decoded::Nar), Ok(NAR));
    refused(posit::encode(17, ES, Decoded::Zero), OUTSIDE_LIMITS, 0);
}

#[test]
fn posits_are_compared_negated_and_worked() {
    assert_eq!(posit::compare(N, ES, ONE, TWO), Ok(Ordering::Less));
    assert_eq!(posit::compare(N, ES, NAR, NAR), Ok(Ordering::Equal));
    assert_eq!(posit::compare(N, ES, ONE, NAR), Ok(Ordering::Greater));
    refused(posit::compare(N, ES, ONE, NO_POSIT), TOO_LARGE, RIGHT);
    assert_eq!(posit::negate(N, ES, THREE), Ok(0xb4));
    refused(posit::negate(N, 3, THREE), OUTSIDE_LIMITS, 0);
    let answers = [0x50, 0xb8, 0x4c, 0x33];
    for (op, answer) in Operation::ALL.into_iter().zip(answers) {
        assert_eq!(posit::operate(N, ES, op, ONE, THREE), Ok(answer));
    }
    assert_eq!(posit::operate(N, ES, Divide, ONE, 0), Ok(NAR));
    refused(
        posit::operate(N, ES, Add, NO_POSIT, NO_POSIT),
        TOO_LARGE,
        LEFT,
    );
}

#[test]
fn posits_go_to_floats_and_back() {
    assert_eq!(posit::from_float(N, ES, -3.0), Ok(0xb4));
    assert_eq!(posit::from_float(N, ES, f64::NAN), Ok(NAR));
    refused(posit::from_float(2, ES, 1.0), OUTSIDE_LIMITS, 0);
    assert_eq!(posit::to_float(N, ES, 0xb4), Ok(Some(-3.0)));
    assert_eq!(posit::to_float(N, ES, NAR), Ok(None));
    refused(posit::to_float(N, ES, u32::MAX), TOO_LARGE, LEFT);
}

#[test]
fn ranges_are_negated_and_worked() {
    assert_eq!(range::negate(N, ES, THREE_ONLY), Ok(0x168 << 9 | 0x168));
    refused(range::negate(N, ES, WITH_INFINITY), HOLDS_INFINITY, LEFT);
    let sum = range::operate(N, ES, Add, ONE_TO_TWO, THREE_ONLY);
    assert_eq!(sum, Ok(0xa0 << 9 | 0xa4));
    // [1,2] - [1,2] is [-1,1]: the operands are independent.
    let difference = range::operate(N, ES, Subtract, ONE_TO_TWO, ONE_TO_TWO);
    assert_eq!(difference, Ok(0x180 << 9 | 0x80));
    // [0,1) × (1,2) is [0,2): zero stays in.
    let product = range::operate(N, ES, Multiply, 0x81, 0x81 << 9 | 0x91);
    assert_eq!(product, Ok(0x91));
    let quotient = range::operate(N, ES, Divide, ONE_TO_TWO, ZERO_TO_ONE);
    refused(quotient, ZERO_DIVISOR, RIGHT);
    refused(
        range::operate(N, ES, Add, NO_WORD, NO_WORD),
        TOO_LARGE,
        LEFT,
    );
}

#[test]
fn readings_come_in_and_ranges_go_out() {
    let reading = |low, high| Reading { low, high };
    assert_eq!(range::take_in(N, ES, reading(1.0, 2.0)), Ok(ONE_TO_TWO));
    refused(range::take_in(N, ES, reading(2.0, 1.0)), BAD_READING, 0);
    let mut outgoing = Outgoing {
        low: 1.0,
        high: 2.0,
        low_open: false,
        high_open: false,
        empty: false,
    };
    assert_eq!(range::give_out(N, ES, ONE_TO_TWO), Ok(outgoing));
    outgoing.high = f64::INFINITY;
    outgoing.high_open = true;
    assert_eq!(range::give_out(N, ES, 0x80 << 9 | 0x101), Ok(outgoing));
    assert!(range::give_out(N, ES, EMPTY).unwrap().empty);
    refused(range::give_out(N, ES, WITH_INFINITY), HOLDS_INFINITY, LEFT);
}

#[test]
fn ranges_are_compared() {
    assert_eq!(range::inside(N, ES, THREE_ONLY, ONE_TO_TWO), Ok(false));
    assert_eq!(range::inside(N, ES, EMPTY, ONE_TO_TWO), Ok(true));
    refused(range::inside(N, ES, EMPTY, NO_WORD), TOO_LARGE, RIGHT);
    assert_eq!(range::meets(N, ES, ZERO_TO_ONE, ONE_TO_TWO), Ok(true));
    assert_eq!(range::meets(N, ES, THREE_ONLY, ONE_TO_TWO), Ok(false));
    refused(range::meets(N, ES, WITH_INFINITY, 0), HOLDS_INFINITY, LEFT);
    assert_eq!(range::below(N, ES, ONE_TO_TWO, THREE_ONLY), Ok(true));
    assert_eq!(range::below(N, ES, ZERO_TO_ONE, ONE_TO_TWO), Ok(false));
    refused(range::below(N, ES, 0, WITH_INFINITY), HOLDS_INFINITY, RIGHT);
}

#[test]
fn columns_are_combined() {
    let mut lent = [OLD; 5];
    let (left, right) = ([ONE_TO_TWO, ONE_TO_TWO], [THREE_ONLY, ONE_TO_TWO]);
    let combined = sheet::combine(N, ES, Add, &left, &right, 2, &mut lent);
    assert_eq!(combined, Ok(2));
    assert_eq!(lent, [OLD, OLD, 0xa0 << 9 | 0xa4, 0x90 << 9 | 0xa0, OLD]);
    assert_eq!(sheet::combine(N, ES, Add, &[], &[], 0, &mut []), Ok(0));
}

#[test]
fn refused_columns_keep_the_lent_memory() {
    let mut lent = [OLD; 3];
    let mut refuse = |op, left: &[u64], right: &[u64], row, number, place| {
        let combined = sheet::combine(N, ES, op, left, right, row, &mut lent);
        refused(combined, number, place);
        assert_eq!(lent, [OLD; 3]);
    };
    let good = [ONE_TO_TWO; 2];
    refuse(Add, &good, &good[1..], 0, WRONG_LENGTH, 0);
    refuse(Add, &good, &good, 2, NO_ROOM, 0);
    refuse(Add, &good, &good, usize::MAX, NO_ROOM, 0);
    refuse(
        Add,
        &good,
        &[ONE_TO_TWO, WITH_INFINITY],
        0,
        HOLDS_INFINITY,
        1,
    );
    refuse(
        Divide,
        &good,
        &[ONE_TO_TWO, ZERO_TO_ONE],
        0,
        ZERO_DIVISOR,
        1,
    );
    let long = vec![ONE_TO_TWO; sheet::LONGEST_COLUMN + 1];
    refuse(Add, &long, &long, 0, WRONG_LENGTH, 0);
}

fn step(operation: Operation, left: u8, right: u8) -> Step {
    Step {
        operation,
        left,
        right,
    }
}

/// The sheet of document 01's example.
const INPUTS: [u64; 2] = [ONE_TO_TWO, THREE_ONLY];

#[test]
fn sheets_are_worked() {
    let mut lent = [OLD; 5];
    let steps = [step(Add, 0, 0), step(Divide, 0, 1)];
    assert_eq!(sheet::work(N, ES, &INPUTS, &steps, &mut lent), Ok(4));
    let rows = [ONE_TO_TWO, THREE_ONLY, 0x90 << 9 | 0xa0, 0x65 << 9 | 0x77];
    assert_eq!(lent[..4], rows);
    assert_eq!(lent[4], OLD);
}

#[test]
fn refused_sheets_keep_the_lent_memory() {
    let mut lent = [OLD; 4];
    let mut refuse = |inputs: &[u64], steps: &[Step], number, place| {
        refused(sheet::work(N, ES, inputs, steps, &mut lent), number, place);
        assert_eq!(lent, [OLD; 4]);
    };
    let difference = step(Subtract, 0, 0);
    refuse(&[0; sheet::MOST_INPUTS + 1], &[], WRONG_LENGTH, 0);
    refuse(
        &INPUTS,
        &[difference; sheet::MOST_STEPS + 1],
        WRONG_LENGTH,
        0,
    );
    refuse(&INPUTS, &[difference; 3], NO_ROOM, 0);
    refuse(&[ONE_TO_TWO, NO_WORD], &[difference], TOO_LARGE, 1);
    refuse(&INPUTS, &[difference, step(Add, 0, 3)], NOT_EARLIER, 3);
    refuse(&INPUTS, &[difference, step(Divide, 0, 2)], ZERO_DIVISOR, 3);
}

/// Document 01's example file.
const FILE: [u8; 31] = [
    0x52, 0x53, 0x48, 0x01, 0x00, 0x08, 0x02, 0x02, 0x02, 0x90, 0x00, 0x01, 0x00, 0x00, 0x00, 0x00,
    0x00, 0x98, 0x30, 0x01, 0x00, 0x00, 0x00, 0x00, 0x00, 0x00, 0x00, 0x00, 0x03, 0x00, 0x01,
];

#[test]
fn files_are_worked() {
    let mut lent = [OLD; 5];
    refused(sheet::work_file(&FILE[..30], &mut lent), BAD_FILE, 0);
    refused(sheet::work_file(&FILE[..8], &mut lent), BAD_FILE, 0);
    refused(sheet::work_file(&FILE, &mut lent[..3]), NO_ROOM, 0);
    assert_eq!(lent, [OLD; 5]);
    assert_eq!(sheet::work_file(&FILE, &mut lent), Ok(4));
    let rows = [
        ONE_TO_TWO,
        THREE_ONLY,
        0x90 << 9 | 0xa0,
        0x65 << 9 | 0x77,
        OLD,
    ];
    assert_eq!(lent, rows);
}

#[test]
fn a_refusal_says_its_number_in_words() {
    let text = |number| {
        Refusal {
            number,
            place: RIGHT,
        }
        .to_string()
    };
    assert_eq!(
        text(HOLDS_INFINITY),
        "refused 4 at place 1: the range holds infinity"
    );
    assert_eq!(
        text(u32::MAX),
        format!("refused {} at place 1: {}", u32::MAX, words(u32::MAX))
    );
}

#[test]
fn the_library_has_the_version_of_the_crate() {
    let numbers: Vec<u32> = jorumrain::VERSION
        .split('.')
        .map(|number| number.parse().expect("a version is three numbers"))
        .collect();
    let together = 10000 * numbers[0] + 100 * numbers[1] + numbers[2];
    assert_eq!(jorumrain::version(), together);
}
