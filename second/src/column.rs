//! Columns: one operation on two columns, pair by pair, into a lent column.

use crate::format::Format;
use crate::operation::Operation;
use crate::range;
use crate::refusal::{self, Answer, Refusal};

/// The longest column.
pub const LONGEST: usize = 4096;

/// Writes the answers from the named row on and answers their count.
pub fn combine(
    n: u32,
    es: u32,
    op: u32,
    left: &[u64],
    right: &[u64],
    row: u64,
    lent: &mut [u64],
) -> Answer<u64> {
    let room = lent.len() as u64;
    let judged = words(n, es, op, left, right, row, room).map(|words| {
        // Nothing is written before every pair has its answer.
        let place = row as usize;
        lent[place..place + words.len()].copy_from_slice(&words);
        words.len() as u64
    });
    Answer::of(judged, 0)
}

/// The answers, after "1, 2, 7, 9 at place 0, then pair by pair".
fn words(
    n: u32,
    es: u32,
    op: u32,
    left: &[u64],
    right: &[u64],
    row: u64,
    room: u64,
) -> Result<Vec<u64>, Refusal> {
    let format = Format::of(n, es)?;
    let operation = Operation::of(op)?;
    let wrong = left.len() != right.len() || left.len() > LONGEST;
    refusal::refuse_if(wrong, refusal::COUNT, 0)?;
    refusal::refuse_if(lacks_room(row, left.len(), room), refusal::ROOM, 0)?;
    let mut words = Vec::with_capacity(left.len());
    for (pair, (a, b)) in left.iter().zip(right).enumerate() {
        let answer = range::combined(format, operation, *a, *b);
        words.push(answer.map_err(|refusal| refusal.at(pair as u64))?);
    }
    Ok(words)
}

/// "the named row plus the words to be written exceeds the lent column's length", without a wrap.
pub fn lacks_room(row: u64, count: usize, room: u64) -> bool {
    u128::from(row) + count as u128 > u128::from(room)
}
