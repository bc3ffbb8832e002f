//! The sheet file: its bytes, its refusals, and the lines that are printed for it.

use crate::format::Format;
use crate::range::{self, Tile};
use crate::refusal::{self, Answer, Refusal};
use crate::sheet;

/// Mark, version, n, es, input count and step count.
const HEAD: usize = 9;

/// A file whose head and length are right.
struct Parts<'a> {
    n: u32,
    es: u32,
    inputs: Vec<u64>,
    steps: &'a [u8],
}

/// Works the sheet of a file into a lent column and answers the count of rows.
pub fn work(bytes: &[u8], lent: &mut [u64]) -> Answer<u64> {
    match parts(bytes) {
        Ok(file) => sheet::work(file.n, file.es, &file.inputs, file.steps, lent),
        Err(refusal) => Answer::of(Err(refusal), 0),
    }
}

/// "10 for under 9 bytes, mark, version; then 1; then 7; then 10 for length, all at place 0".
fn parts(bytes: &[u8]) -> Result<Parts<'_>, Refusal> {
    refusal::refuse_if(bytes.len() < HEAD, refusal::FILE, 0)?;
    let version = u16::from_le_bytes([bytes[3], bytes[4]]);
    let wrong = &bytes[..3] != b"RSH" || version != 1;
    refusal::refuse_if(wrong, refusal::FILE, 0)?;
    let (n, es) = (u32::from(bytes[5]), u32::from(bytes[6]));
    Format::of(n, es)?;
    let (inputs, steps) = (usize::from(bytes[7]), usize::from(bytes[8]));
    let too_many = inputs > sheet::INPUTS || steps > sheet::STEPS;
    refusal::refuse_if(too_many, refusal::COUNT, 0)?;
    let (first_step, end) = (HEAD + 8 * inputs, HEAD + 8 * inputs + sheet::STEP * steps);
    refusal::refuse_if(bytes.len() != end, refusal::FILE, 0)?;
    let words = bytes[HEAD..first_step].chunks_exact(8);
    Ok(Parts {
        n,
        es,
        inputs: words.map(low_byte_first).collect(),
        steps: &bytes[first_step..],
    })
}

/// A word from its bytes, each later byte weighing 256 times more.
fn low_byte_first(bytes: &[u8]) -> u64 {
    let high_first = bytes.iter().rev();
    high_first.fold(0, |word, byte| word * 256 + u64::from(*byte))
}

/// What `sheetrows` prints for a file: its rows, or one refusal line.
pub fn printed(bytes: &[u8]) -> String {
    match lines(bytes) {
        Ok(lines) => lines,
        Err(Refusal { number, place }) => format!("NO {number} {place}\n"),
    }
}

fn lines(bytes: &[u8]) -> Result<String, Refusal> {
    let file = parts(bytes)?;
    let format = Format::of(file.n, file.es)?;
    // The program lends a column with room for the longest sheet.
    let room = (sheet::INPUTS + sheet::STEPS) as u64;
    let rows = sheet::rows(file.n, file.es, &file.inputs, file.steps, room)?;
    let lines = rows.iter().enumerate();
    Ok(lines.map(|(row, word)| line(format, row, *word)).collect())
}

/// "`ROW`, row number, start posit in four lowercase hex digits, `c` or `o`, end posit, `c` or `o`".
fn line(format: &Format, row: usize, word: u64) -> String {
    let (start, end) = range::tiles(format, word);
    format!("ROW {row} {} {}\n", shown(start), shown(end))
}

fn shown(tile: Tile) -> String {
    format!("{:04x} {}", tile.posit, if tile.open { 'o' } else { 'c' })
}
