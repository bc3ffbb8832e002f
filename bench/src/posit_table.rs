//! The table of the calls on posits: the proved code, plain Rust and the second program.

use crate::column::{Column, LENGTH};
use crate::plain;
use crate::stopwatch::{nanoseconds, pass};
use jorumrain::raw::{PositFloating, FINITE};
use second::refusal::Answer;
use std::fmt::Debug;

pub fn print(formats: &[(u32, u32)]) {
    println!("| Format | Call | Proved | Plain Rust | Second program |");
    println!("|---|---|---|---|---|");
    for (n, es) in formats {
        let column = Column::of(*n, *es);
        form_lines(&column);
        order_lines(&column);
        operation_lines(&column);
        float_lines(&column);
    }
}

fn form_lines(column: &Column) {
    line(
        "decode",
        column,
        |c, row| jorumrain::raw::decode(c.n, c.es, c.left[row]),
        |c, row| plain::decode(c.n, c.es, c.left[row]),
        |c, row| second::posit::decode(c.n, c.es, c.left[row].into()),
    );
    line(
        "encode",
        column,
        |c, row| {
            let x = &c.numbers[row];
            jorumrain::raw::encode(c.n, c.es, FINITE, x.negative, x.scale, x.fraction)
        },
        |c, row| {
            let x = &c.numbers[row];
            plain::encode(c.n, c.es, FINITE, x.negative, x.scale, x.fraction)
        },
        |c, row| second::posit::encode(c.n, c.es, c.numbers[row].decoded()),
    );
}

fn order_lines(column: &Column) {
    line(
        "compare",
        column,
        |c, row| jorumrain::raw::compare(c.n, c.es, c.left[row], c.right[row]),
        |c, row| plain::compare(c.n, c.es, c.left[row], c.right[row]),
        |c, row| second::posit::compare(c.n, c.es, c.left[row].into(), c.right[row].into()),
    );
    line(
        "negate",
        column,
        |c, row| jorumrain::raw::negate(c.n, c.es, c.left[row]),
        |c, row| plain::negate(c.n, c.es, c.left[row]),
        |c, row| second::posit::negate(c.n, c.es, c.left[row].into()),
    );
}

fn operation_lines(column: &Column) {
    for (name, op) in [("add", 0), ("multiply", 2), ("divide", 3)] {
        line(
            name,
            column,
            |c, row| jorumrain::raw::operate(c.n, c.es, op, c.left[row], c.right[row]),
            |c, row| plain::operate(c.n, c.es, op, c.left[row], c.right[row]),
            |c, row| second_operation(c, op, row),
        );
    }
}

fn second_operation(c: &Column, op: u8, row: usize) -> Answer<u64> {
    let (left, right) = (c.left[row].into(), c.right[row].into());
    second::posit::operate(c.n, c.es, op.into(), left, right)
}

fn float_lines(column: &Column) {
    line(
        "from_float",
        column,
        |c, row| jorumrain::raw::from_float(c.n, c.es, c.floats[row]),
        |c, row| plain::from_float(c.n, c.es, c.floats[row]),
        |c, row| second::float::from_float(c.n, c.es, c.floats[row]),
    );
    line(
        "to_float",
        column,
        |c, row| fields(jorumrain::raw::to_float(c.n, c.es, c.left[row])),
        |c, row| fields(plain::to_float(c.n, c.es, c.left[row])),
        |c, row| second::float::to_float(c.n, c.es, c.left[row].into()),
    );
}

/// The float by its bits, so that the two zeros differ.
fn fields(x: PositFloating) -> (u32, u32, u32, u64) {
    (x.number, x.place, x.kind, x.float.to_bits())
}

/// The three programs on one call, once plain Rust is seen to answer as the proved code does.
fn line<T: PartialEq + Debug, U>(
    name: &str,
    column: &Column,
    proved: impl Fn(&Column, usize) -> T,
    plain: impl Fn(&Column, usize) -> T,
    second: impl Fn(&Column, usize) -> U,
) {
    for row in 0..LENGTH {
        assert_eq!(proved(column, row), plain(column, row), "{name}, row {row}");
    }
    let [proved, plain, second] =
        nanoseconds([&|| pass(column, &proved), &|| pass(column, &plain), &|| {
            pass(column, &second)
        }]);
    let format = (column.n, column.es);
    println!("| {format:?} | {name} | {proved:.1} | {plain:.1} | {second:.1} |");
}
