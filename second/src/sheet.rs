//! Sheets: inputs kept as given, then steps on earlier rows, into a lent column.

use crate::column;
use crate::format::Format;
use crate::operation::Operation;
use crate::range;
use crate::refusal::{self, Answer, Refusal};

/// The most inputs of a sheet.
pub const INPUTS: usize = 32;
/// The most steps of a sheet.
pub const STEPS: usize = 64;
/// The bytes of a step: operation number, left row, right row.
pub const STEP: usize = 3;

/// Writes all rows from the start of the lent column and answers their count.
pub fn work(n: u32, es: u32, inputs: &[u64], steps: &[u8], lent: &mut [u64]) -> Answer<u64> {
    let judged = rows(n, es, inputs, steps, lent.len() as u64).map(|rows| {
        lent[..rows.len()].copy_from_slice(&rows);
        rows.len() as u64
    });
    Answer::of(judged, 0)
}

/// All rows, after "1, 7, 9 at place 0; each input 3, 4; each step 2, 8, 5".
pub fn rows(n: u32, es: u32, inputs: &[u64], steps: &[u8], room: u64) -> Result<Vec<u64>, Refusal> {
    let format = Format::of(n, es)?;
    let count = steps.len() / STEP;
    let wrong = inputs.len() > INPUTS || count > STEPS || steps.len() % STEP != 0;
    refusal::refuse_if(wrong, refusal::COUNT, 0)?;
    let lacking = column::lacks_room(0, inputs.len() + count, room);
    refusal::refuse_if(lacking, refusal::ROOM, 0)?;
    for (row, input) in inputs.iter().enumerate() {
        range::judge(format, *input, row as u64)?;
    }
    let mut rows = inputs.to_vec();
    for step in steps.chunks_exact(STEP) {
        let word = stepped(format, step, &rows).map_err(|refusal| refusal.at(rows.len() as u64));
        rows.push(word?);
    }
    Ok(rows)
}

/// The answer of one step on the rows before it.
fn stepped(format: &Format, step: &[u8], rows: &[u64]) -> Result<u64, Refusal> {
    let operation = Operation::of(u32::from(step[0]))?;
    let missing = Refusal::new(refusal::ROW, 0);
    let left = rows.get(usize::from(step[1])).ok_or(missing)?;
    let right = rows.get(usize::from(step[2])).ok_or(missing)?;
    range::combined(format, operation, *left, *right)
}
