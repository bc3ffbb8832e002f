//! The calls on columns and sheets, whose answers go into memory that the caller lends.

use crate::operation::Operation;
use crate::raw::sheet as raw;
use crate::refusal::{answered, Refusal};

/// The greatest number of words in a column, and of inputs and steps in a sheet.
pub const LONGEST_COLUMN: usize = 4096;
pub const MOST_INPUTS: usize = 32;
pub const MOST_STEPS: usize = 64;

/// The bytes of a step.
pub const STEP_BYTES: usize = 3;

/// A step of a sheet: an operation and two earlier rows.
#[derive(Clone, Copy, Debug, PartialEq, Eq, Hash)]
pub struct Step {
    pub operation: Operation,
    pub left: u8,
    pub right: u8,
}

/// One operation on two columns, pair by pair: answer i goes to `lent[row + i]`, and the count of answers comes back.
///
/// All other words of the lent column stay. Refused, with every word of it as it was: 1, 7 and 9;
/// then, with the pair as place, 3 and 4 for its left, 3 and 4 for its right, and 5.
pub fn combine(
    n: u32,
    es: u32,
    op: Operation,
    left: &[u64],
    right: &[u64],
    row: usize,
    lent: &mut [u64],
) -> Result<usize, Refusal> {
    count(raw::combine(n, es, op.number(), left, right, row, lent))
}

/// A sheet worked: its rows, the inputs first, go to the first words of the lent column, and their count comes back.
///
/// The words after them stay. Refused, with every word of the lent column as it was: 1, 7 and 9; then,
/// with the row as place, 3 and 4 for an input, and 8 and 5 for a step.
pub fn work(
    n: u32,
    es: u32,
    inputs: &[u64],
    steps: &[Step],
    lent: &mut [u64],
) -> Result<usize, Refusal> {
    // One step more than a sheet may have is refused as any longer list is.
    let mut bytes = [0; STEP_BYTES * (MOST_STEPS + 1)];
    let length = STEP_BYTES * steps.len().min(MOST_STEPS + 1);
    for (three, step) in bytes.chunks_exact_mut(STEP_BYTES).zip(steps) {
        three.copy_from_slice(&[step.operation.number(), step.left, step.right]);
    }
    count(raw::work(n, es, inputs, &bytes[..length], lent))
}

/// The sheet of a sheet file worked: rows, lent column and count as for `work`; n and es stand in the file.
///
/// Refused, with every word of the lent column as it was: 10 for under 9 bytes, the mark or the
/// version; 1; 7; 10 for the length; then 9, and with the row as place 3 and 4 for an input, and 2, 8
/// and 5 for a step.
pub fn work_file(file: &[u8], lent: &mut [u64]) -> Result<usize, Refusal> {
    count(raw::work_file(file, lent))
}

fn count(answer: raw::SheetAnswer) -> Result<usize, Refusal> {
    answered(answer.number, answer.place, answer.count as usize)
}
