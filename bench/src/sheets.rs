//! Full sheets of 32 inputs and 64 steps: what one costs, in time and in stack.

use crate::column::LENGTH;
use crate::ranges::{self, Ranges};
use crate::stack;
use crate::stopwatch::nanoseconds;
use jorumrain::raw::sheet::{self, SheetAnswer};
use std::cell::RefCell;

const INPUTS: usize = 32;
const STEPS: usize = 64;

/// Half of the inputs come from the left column and half from the right one, whose ranges divide.
const HALF: usize = INPUTS / 2;

pub struct Sheet {
    n: u32,
    es: u32,
    inputs: Vec<u64>,
    steps: Vec<u8>,
    lent: Vec<u64>,
    answer: SheetAnswer,
}

impl Sheet {
    /// All four operations in turn, each of an earlier row and an input that divides.
    pub fn full(ranges: &Ranges) -> Sheet {
        let inputs = [&ranges.left[..HALF], &ranges.right[..HALF]].concat();
        let step = |step| [step % 4, 7 * step % (INPUTS + step), HALF + 5 * step % HALF];
        let steps = (0..STEPS).flat_map(step).map(|byte| byte as u8);
        Sheet {
            n: ranges.n,
            es: ranges.es,
            inputs,
            steps: steps.collect(),
            lent: vec![0; INPUTS + STEPS],
            answer: SheetAnswer {
                number: 0,
                place: 0,
                count: 0,
            },
        }
    }

    pub fn work(&mut self) {
        self.answer = sheet::work(self.n, self.es, &self.inputs, &self.steps, &mut self.lent);
    }

    pub fn assert_done(&self) {
        assert_eq!(self.answer.number, 0, "place {}", self.answer.place);
    }
}

pub fn print(formats: &[(u32, u32)]) {
    println!("| Format | Ranges | Sheet of 32 inputs and 64 steps | Its stack |");
    println!("|---|---|---|---|");
    for (n, es) in formats {
        for column in ranges::of(*n, *es) {
            let (time, stack) = (microseconds(&column), stack::of_sheet(&column));
            let (format, kind) = ((n, es), column.kind.name());
            println!("| {format:?} | {kind} | {time:.1} µs | {stack} bytes |");
        }
    }
}

fn microseconds(ranges: &Ranges) -> f64 {
    let sheet = RefCell::new(Sheet::full(ranges));
    let [per_row] = nanoseconds([&|| sheet.borrow_mut().work()]);
    sheet.borrow().assert_done();
    per_row * LENGTH as f64 / 1000.0
}
