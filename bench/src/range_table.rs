//! The table of the operations on ranges: the proved code in single calls and by the column, plain Rust, the peers and the second program.

use crate::column::LENGTH;
use crate::peers::{ends, widened, Columns, Peer, PEERS};
use crate::plain;
use crate::ranges::{self, Ranges};
use crate::stopwatch::{nanoseconds, pass};
use jorumrain::raw::{range, sheet};
use std::cell::RefCell;

const ADD: u8 = 0;
const MULTIPLY: u8 = 2;
const DIVIDE: u8 = 3;

/// What the columns of the table are, after the format, the call and the ranges.
const HEADS: [&str; 12] = [
    "Proved, single calls",
    "Plain Rust, single calls",
    "Proved, column call",
    "Plain Rust, column call",
    "Boost",
    "Boost, base checking",
    "Boost, mode set once",
    "MPFI",
    "Second program",
    "Proved / plain",
    "Boost / proved",
    "MPFI / proved",
];

pub fn print(formats: &[(u32, u32)]) {
    println!(
        "| Format | Call on ranges | Ranges | {} |",
        HEADS.join(" | ")
    );
    println!("|---|---|---|{}", "---|".repeat(HEADS.len()));
    for (n, es) in formats {
        for column in ranges::of(*n, *es) {
            for (name, op) in [("add", ADD), ("multiply", MULTIPLY), ("divide", DIVIDE)] {
                let (format, kind) = ((n, es), column.kind.name());
                println!("| {format:?} | {name} | {kind} | {} |", line(&column, op));
            }
        }
    }
}

/// All programs on one operation in one set of rounds; the ratios are those of the column calls.
fn line(column: &Ranges, op: u8) -> String {
    let peers = PEERS.map(|peer| Columns::of(peer, column));
    hold_plain(column, op);
    for (peer, columns) in PEERS.iter().zip(&peers) {
        hold_peer(column, op, *peer, columns);
    }
    let lent = RefCell::new(vec![0; LENGTH]);
    let [single, plain, combined, whole, boost, base, once, mpfi, second] = nanoseconds([
        &|| pass(column, |c, row| proved(c, op, row)),
        &|| pass(column, |c, row| plain_operation(c, op, row)),
        &|| combine(column, op, &mut lent.borrow_mut()),
        &|| plain_combine(column, op, &mut lent.borrow_mut()),
        &|| peers[0].combine(op),
        &|| peers[1].combine(op),
        &|| peers[2].combine(op),
        &|| peers[3].combine(op),
        &|| pass(column, |c, row| second_operation(c, op, row)),
    ]);
    let peers = format!("{boost:.1} | {base:.1} | {once:.1} | {mpfi:.1}");
    let ours = format!("{single:.1} | {plain:.1} | {combined:.1} | {whole:.1}");
    let [to_plain, to_boost, to_mpfi] = [combined / whole, boost / combined, mpfi / combined];
    format!("{ours} | {peers} | {second:.1} | {to_plain:.2} | {to_boost:.2} | {to_mpfi:.2}")
}

fn proved(c: &Ranges, op: u8, row: usize) -> range::RangeAnswer {
    range::operate(c.n, c.es, op, c.left[row], c.right[row])
}

fn second_operation(c: &Ranges, op: u8, row: usize) -> second::refusal::Answer<u64> {
    second::range::operate(c.n, c.es, op.into(), c.left[row], c.right[row])
}

fn combine(c: &Ranges, op: u8, lent: &mut [u64]) {
    let answer = sheet::combine(c.n, c.es, op, &c.left, &c.right, 0, lent);
    assert_eq!(answer.number, 0);
}

fn plain_combine(c: &Ranges, op: u8, lent: &mut [u64]) {
    let number = plain::column::combine(c.n, c.es, op, &c.left, &c.right, lent);
    assert_eq!(number, 0);
}

fn plain_operation(c: &Ranges, op: u8, row: usize) -> range::RangeAnswer {
    plain::range::operate(c.n, c.es, op, c.left[row], c.right[row])
}

/// The column calls and plain Rust answer as the proved single calls do.
fn hold_plain(c: &Ranges, op: u8) {
    let [mut combined, mut whole] = [vec![0; LENGTH], vec![0; LENGTH]];
    combine(c, op, &mut combined);
    plain_combine(c, op, &mut whole);
    for row in 0..LENGTH {
        let (proved, plain) = (proved(c, op, row), plain_operation(c, op, row));
        assert_eq!(proved, plain, "operation {op}, row {row}");
        let words = [combined[row], whole[row]];
        assert_eq!(words, [proved.word; 2], "column, operation {op}, row {row}");
    }
}

/// A peer's answer, widened to this format's ends, has the ends of the proved answer, which is never a refusal here.
fn hold_peer(c: &Ranges, op: u8, peer: Peer, columns: &Columns) {
    columns.combine(op);
    for (row, interval) in columns.answers().into_iter().enumerate() {
        let answer = proved(c, op, row);
        assert_eq!(answer.number, 0, "operation {op}, row {row}");
        let same = ends(c, answer.word) == widened(c, interval);
        assert!(same, "{peer:?}, operation {op}, row {row}: {interval:?}");
    }
}
