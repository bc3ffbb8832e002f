//! Sheet files: document 01's example byte for byte, and damaged files of every kind.

mod common;

use common::{done, refused};
use second::file;

const EXAMPLE: [u8; 31] = [
    0x52, 0x53, 0x48, 0x01, 0x00, 0x08, 0x02, 0x02, 0x02, 0x90, 0x00, 0x01, 0x00, 0x00, 0x00, 0x00,
    0x00, 0x98, 0x30, 0x01, 0x00, 0x00, 0x00, 0x00, 0x00, 0x00, 0x00, 0x00, 0x03, 0x00, 0x01,
];

const PRINTED: &str = "\
ROW 0 0040 c 0048 c
ROW 1 004c c 004c c
ROW 2 0048 c 0050 c
ROW 3 0032 o 003b o
";

/// What lent memory holds before a call.
const OLD: u64 = 0xdead_beef_dead_beef;

/// A file's refusal, both printed and as a call whose lent column stays as it was.
fn check_refused(bytes: &[u8], number: u32, place: u64) {
    assert_eq!(file::printed(bytes), format!("NO {number} {place}\n"));
    let mut lent = [OLD; 100];
    assert_eq!(file::work(bytes, &mut lent), refused(number, place, 0));
    assert_eq!(lent, [OLD; 100]);
}

/// The example with some bytes replaced.
fn changed(changes: &[(usize, u8)]) -> Vec<u8> {
    let mut bytes = EXAMPLE.to_vec();
    for (place, byte) in changes {
        bytes[*place] = *byte;
    }
    bytes
}

#[test]
fn the_example_prints_its_rows() {
    assert_eq!(file::printed(&EXAMPLE), PRINTED);
    let mut lent = [OLD; 5];
    assert_eq!(file::work(&EXAMPLE, &mut lent), done(4));
    let rows = ["40 c 48 c", "4c c 4c c", "48 c 50 c", "32 o 3b o"];
    assert_eq!(lent[..4], rows.map(|text| common::word(8, text)));
    assert_eq!(lent[4], OLD);
    let mut short = [OLD; 3];
    assert_eq!(file::work(&EXAMPLE, &mut short), refused(9, 0, 0));
    assert_eq!(short, [OLD; 3]);
}

#[test]
fn every_length_but_the_right_one_is_refused_10() {
    for length in 0..EXAMPLE.len() {
        check_refused(&EXAMPLE[..length], 10, 0);
    }
    check_refused(&[&EXAMPLE[..], &[0]].concat(), 10, 0);
    check_refused(&[&EXAMPLE[..], &[0; 1000]].concat(), 10, 0);
}

#[test]
fn mark_and_version() {
    for (place, right) in EXAMPLE[..5].iter().enumerate() {
        for byte in (0..=255).filter(|byte| byte != right) {
            check_refused(&changed(&[(place, byte)]), 10, 0);
        }
    }
}

#[test]
fn order_of_the_head() {
    // Mark before format, format before counts, counts before length.
    check_refused(&changed(&[(0, 0), (5, 99), (7, 99)]), 10, 0);
    check_refused(&changed(&[(3, 2), (5, 99)]), 10, 0);
    for (place, byte) in [(5, 2), (5, 17), (5, 0), (5, 255), (6, 3), (6, 255)] {
        check_refused(&changed(&[(place, byte), (7, 33), (8, 65)]), 1, 0);
        check_refused(&changed(&[(place, byte)])[..9], 1, 0);
    }
    check_refused(&changed(&[(7, 33)]), 7, 0);
    check_refused(&changed(&[(8, 65)]), 7, 0);
    check_refused(&changed(&[(7, 255), (8, 255)])[..9], 7, 0);
    check_refused(&changed(&[(7, 32)]), 10, 0);
    check_refused(&changed(&[(8, 64)]), 10, 0);
    check_refused(&changed(&[(7, 1)]), 10, 0);
    check_refused(&changed(&[(8, 1)]), 10, 0);
}

#[test]
fn refusals_of_the_sheet() {
    // A high byte of an input makes the word too large; a closed NaR holds infinity.
    check_refused(&changed(&[(16, 1)]), 3, 0);
    check_refused(&changed(&[(24, 0x80)]), 3, 1);
    check_refused(&changed(&[(9, 0), (10, 0), (11, 2)]), 4, 0);
    check_refused(&changed(&[(25, 4)]), 2, 2);
    check_refused(&changed(&[(28, 4)]), 2, 3);
    check_refused(&changed(&[(26, 2)]), 8, 2);
    check_refused(&changed(&[(30, 3)]), 8, 3);
    check_refused(&changed(&[(17, 0), (18, 0), (19, 0)]), 5, 3);
}

#[test]
fn empty_and_full_sheets() {
    assert_eq!(file::printed(b"RSH\x01\x00\x08\x02\x00\x00"), "");
    let mut full = b"RSH\x01\x00\x10\x02\x20\x40".to_vec();
    // All reals at n = 16, and then sums of them.
    let all = common::word(16, "8000 o 8000 o");
    full.extend((0..32).flat_map(|_| all.to_le_bytes()));
    full.extend([0, 31, 0].repeat(64));
    assert_eq!(full.len(), 457);
    let lines = (0..96).map(|row| format!("ROW {row} 8000 o 8000 o\n"));
    assert_eq!(file::printed(&full), lines.collect::<String>());
    full.push(0);
    check_refused(&full, 10, 0);
}

#[test]
fn empty_inputs_print_as_given() {
    let mut bytes = b"RSH\x01\x00\x03\x00\x01\x01".to_vec();
    let given = common::word(3, "5 o 5 o");
    bytes.extend(given.to_le_bytes());
    bytes.extend([2, 0, 0]);
    let printed = "ROW 0 0005 o 0005 o\nROW 1 0000 o 0000 o\n";
    assert_eq!(file::printed(&bytes), printed);
}
