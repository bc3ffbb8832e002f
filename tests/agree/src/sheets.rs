//! Columns and sheets at random, the lent column filled with a pattern before each call and compared whole after it.

use crate::formats;
use crate::picks;
use crate::random::Random;
use crate::tally::{Difference, Outcome, Tally};
use jorumrain::raw::sheet as proved;
use second::{column, sheet};

/// Columns and sheets of each of the 42 formats: a hundred thousand of each in all.
const PER_FORMAT: u32 = 2_400;

/// Formats up to this width are tried with every pair of words, others with so many columns, the first of the greatest length.
const SMALL_WIDTH: u32 = 4;
const ROUNDS: u32 = 120;
const MOST: usize = 4096;

/// A word that no call writes by itself.
const FILL: u64 = 0xdead_beef_0bad_f00d;

/// The numbers that a column and a sheet may come back with.
const OF_COLUMNS: [u32; 8] = [0, 1, 2, 3, 4, 5, 7, 9];
const OF_SHEETS: [u32; 9] = [0, 1, 2, 3, 4, 5, 7, 8, 9];

pub fn columns() -> Outcome {
    let mut tally = Tally::default();
    let mut random = Random::new();
    for (n, es) in formats::all() {
        for _ in 0..PER_FORMAT {
            let length = length(&mut random, 12);
            let (left, right) = (words(&mut random, n, length), words(&mut random, n, length));
            combine(&mut tally, &mut random, (n, es), &left, &right)?;
        }
        for length in [4095, 4096, 4097] {
            let left = words(&mut random, n, length);
            combine(&mut tally, &mut random, (n, es), &left, &left)?;
        }
    }
    for (n, es) in formats::around_limits() {
        combine(&mut tally, &mut random, (n, es), &[0], &[0])?;
    }
    tally.with_every(&OF_COLUMNS)
}

/// One column call on both programs: sometimes with columns of unequal length, an operation past the last, or too little room.
fn combine(
    tally: &mut Tally,
    random: &mut Random,
    (n, es): (u32, u32),
    left: &[u64],
    right: &[u64],
) -> Result<(), Difference> {
    let operations = if random.below(8) == 0 { 256 } else { 4 };
    let op = random.below(operations) as u8;
    let cut = usize::from(random.below(32) == 0).min(right.len());
    let right = &right[cut..];
    let row = match random.below(64) {
        0 => usize::MAX - random.below(3) as usize,
        _ => random.below(6) as usize,
    };
    let room = (row.min(64) + left.len() + random.below(6) as usize).saturating_sub(1);
    let (mut ours, mut theirs) = (vec![FILL; room], vec![FILL; room]);
    let answer = proved::combine(n, es, op, left, right, row, &mut ours);
    let other = column::combine(n, es, op.into(), left, right, row as u64, &mut theirs);
    let got = (answer.number, answer.place.into(), answer.count.into());
    let expected = (other.number, other.place, other.value);
    let call = format!("{:?}", (n, es, op, left.len(), right.len(), row, room));
    hold(tally, "combine", &call, got, expected, ours == theirs)
}

/// Columns of ranges above 0, or across it on the left: every pair of such words of the smallest formats, and random ones of all formats.
pub fn columns_of_one_kind() -> Outcome {
    let mut tally = Tally::default();
    let mut random = Random::new();
    for (n, es) in formats::all() {
        if n <= SMALL_WIDTH {
            let kinds =
                |kind: fn(u32, u64) -> bool| (0..1 << (2 * n + 2)).filter(move |w| kind(n, *w));
            let pairs = kinds(above_or_across).flat_map(|a| kinds(above).map(move |b| (a, b)));
            let (left, right): (Vec<u64>, Vec<u64>) = pairs.unzip();
            for (left, right) in left.chunks(MOST).zip(right.chunks(MOST)) {
                combine_each(&mut tally, (n, es), left, right)?;
            }
        }
        for round in 0..ROUNDS {
            let length = if round == 0 {
                MOST
            } else {
                1 + random.below(40) as usize
            };
            let left = words_of(&mut random, n, length, above_or_across);
            let mut right = words_of(&mut random, n, length, above);
            if round % 4 == 1 {
                let at = random.below(length as u64) as usize;
                right[at] = words(&mut random, n, 1)[0];
            }
            combine_each(&mut tally, (n, es), &left, &right)?;
        }
    }
    Ok(tally)
}

/// So many random words of one kind.
fn words_of(random: &mut Random, n: u32, length: usize, kind: fn(u32, u64) -> bool) -> Vec<u64> {
    let mut found = Vec::new();
    while found.len() < length {
        found.extend(words(random, n, 64).into_iter().filter(|w| kind(n, *w)));
    }
    found.truncate(length);
    found
}

/// Every operation on two columns of equal length, with room for the answers.
fn combine_each(
    tally: &mut Tally,
    (n, es): (u32, u32),
    left: &[u64],
    right: &[u64],
) -> Result<(), Difference> {
    for op in 0..4 {
        let (mut ours, mut theirs) = (vec![FILL; left.len() + 2], vec![FILL; left.len() + 2]);
        let answer = proved::combine(n, es, op, left, right, 1, &mut ours);
        let other = column::combine(n, es, op.into(), left, right, 1, &mut theirs);
        let got = (answer.number, answer.place.into(), answer.count.into());
        let expected = (other.number, other.place, other.value);
        let call = format!("{:?}", (n, es, op, left, right));
        hold(tally, "combine", &call, got, expected, ours == theirs)?;
    }
    Ok(())
}

/// A range with a member whose start is not below 0 and not a closed 0, and whose end is a posit above 0.
fn above(n: u32, w: u64) -> bool {
    let (start, end) = (w >> (n + 1), w % (2 << n));
    let (low, high, nar) = (start / 2, end / 2, 1 << (n - 1));
    let closed = start % 2 == 0 && end % 2 == 0;
    start != 0 && 0 < high && high < nar && (low < high || low == high && closed)
}

/// The same, or a range from a posit below 0 to one above 0.
fn above_or_across(n: u32, w: u64) -> bool {
    let (low, high, nar) = (w >> (n + 2), w % (2 << n) / 2, 1 << (n - 1));
    let across = nar < low && low < 2 * nar && 0 < high && high < nar;
    above(n, w) || across
}

pub fn sheets() -> Outcome {
    let mut tally = Tally::default();
    let mut random = Random::new();
    for (n, es) in formats::all() {
        for _ in 0..PER_FORMAT {
            work(&mut tally, &mut random, n, es)?;
        }
    }
    for (n, es) in formats::around_limits() {
        work(&mut tally, &mut random, n, es)?;
    }
    tally.with_every(&OF_SHEETS)
}

/// One sheet on both programs, sometimes with too little room.
fn work(tally: &mut Tally, random: &mut Random, n: u32, es: u32) -> Result<(), Difference> {
    let (inputs, steps) = picked(random, n.clamp(3, 16));
    let room = (inputs.len() + steps.len() / 3 + random.below(8) as usize).saturating_sub(1);
    let (mut ours, mut theirs) = (vec![FILL; room], vec![FILL; room]);
    let answer = proved::work(n, es, &inputs, &steps, &mut ours);
    let other = sheet::work(n, es, &inputs, &steps, &mut theirs);
    let got = (answer.number, answer.place.into(), answer.count.into());
    let expected = (other.number, other.place, other.value);
    let call = format!("{:?}", (n, es, &inputs, &steps, room));
    hold(tally, "work", &call, got, expected, ours == theirs)
}

/// The inputs and steps of a sheet: shallow in most, of 64 steps and a few more in one of eight.
pub fn picked(random: &mut Random, n: u32) -> (Vec<u64>, Vec<u8>) {
    let bound = if random.below(16) == 0 { 34 } else { 6 };
    let inputs = length(random, bound);
    let inputs = words(random, n, inputs);
    let deep = random.below(8) == 0;
    let count = if deep {
        62 + random.below(5)
    } else {
        random.below(10)
    };
    let mut steps = Vec::new();
    for step in 0..count {
        let rows = inputs.len() as u64 + step + u64::from(random.below(256) == 0);
        let op = [0, 0, 1, 1, 2, 2, 2, 3][random.below(8) as usize];
        let op = if random.below(512) == 0 {
            random.bits() as u8
        } else {
            op
        };
        steps.extend([op, earlier(random, rows), earlier(random, rows)]);
    }
    if random.below(64) == 0 {
        steps.push(0);
    }
    (inputs, steps)
}

/// The same answer, and the same lent column.
fn hold(
    tally: &mut Tally,
    name: &'static str,
    call: &str,
    got: (u32, u64, u64),
    expected: (u32, u64, u64),
    same_column: bool,
) -> Result<(), Difference> {
    if got != expected || !same_column {
        let columns = if same_column { "equal" } else { "different" };
        let answers = format!("proved {got:?}, second {expected:?}, {columns} columns");
        return Err(Difference(format!("{name} {call}: {answers}")));
    }
    tally.count_number(name, got.0);
    Ok(())
}

/// A row below the count, or 0 where there is none.
fn earlier(random: &mut Random, rows: u64) -> u8 {
    random.below(rows.max(1)) as u8
}

fn length(random: &mut Random, bound: u64) -> usize {
    random.below(bound) as usize
}

/// The word itself in most: one in some hundreds gets a bit that must be zero.
fn too_long(random: &mut Random, n: u32, word: u64) -> u64 {
    if random.below(256) != 0 {
        return word;
    }
    let length = u64::from(2 * n + 2);
    let bit = length + random.below(64 - length);
    word | (1 << bit)
}

/// Words of which most are real ranges: one that holds infinity is taken in one of sixteen.
fn words(random: &mut Random, n: u32, count: usize) -> Vec<u64> {
    let mut taken = Vec::new();
    while taken.len() < count {
        let (word, _) = picks::words(random, n);
        let refused = second::range::negate(n, 0, word).number != 0;
        if !refused || random.below(16) == 0 {
            taken.push(too_long(random, n, word));
        }
    }
    taken
}
