//! Sheet files through the program `sheetrows`: random, at the limits and damaged. What it prints is held to the second program's text.

use crate::formats;
use crate::random::Random;
use crate::sheets;
use crate::tally::{Difference, Outcome, Tally};
use second::file;
use std::io::Write;
use std::path::Path;
use std::process::{Command, Stdio};

/// Files of each of the 42 formats.
const PER_FORMAT: u32 = 200;

/// The length of a file of 32 inputs and 64 steps, and the lengths tried of its bytes.
const LONGEST: usize = 457;
const LENGTHS: usize = 460;

/// Files of random bytes, and as many whose bytes arrive in pieces.
const SCRAMBLED: u32 = 300;

/// The numbers that a file may come back with: with room for every sheet 9 is not one of them.
const OF_FILES: [u32; 9] = [0, 1, 2, 3, 4, 5, 7, 8, 10];

/// The program that `./run` builds.
const PROGRAM: &str = concat!(env!("CARGO_MANIFEST_DIR"), "/../../crates/sheetrows/out/sheetrows");

pub fn every() -> Outcome {
    if !Path::new(PROGRAM).exists() {
        return Err(Difference(format!("{PROGRAM} is not there")));
    }
    let mut tally = Tally::default();
    let mut random = Random::new();
    for file in generated(&mut random) {
        hold(&mut tally, &file)?;
    }
    heads(&mut tally)?;
    lengths(&mut tally)?;
    scrambled(&mut tally, &mut random)?;
    tally.with_every(&OF_FILES)
}

/// Files at random, so many of each format.
fn generated(random: &mut Random) -> Vec<Vec<u8>> {
    let mut files = Vec::new();
    for (n, es) in formats::all() {
        for _ in 0..PER_FORMAT {
            let (inputs, steps) = sheets::picked(random, n);
            files.push(bytes(n, es, &inputs, &steps));
        }
    }
    files
}

/// The generated files in hexadecimal, a line each, for tests of programs that read them.
pub fn print_generated() {
    for file in generated(&mut Random::new()) {
        let digits: String = file.iter().map(|byte| format!("{byte:02x}")).collect();
        println!("{digits}");
    }
}

/// Each byte of a good file's head replaced by each other one.
fn heads(tally: &mut Tally) -> Result<(), Difference> {
    let good = bytes(8, 2, &[0x10090, 0x13098], &[0, 0, 0, 3, 0, 1]);
    for at in 0..9 {
        for byte in 0..=255 {
            let mut damaged = good.clone();
            damaged[at] = byte;
            hold(tally, &damaged)?;
        }
    }
    Ok(())
}

/// The longest good file cut short or carried on, at each length; then a megabyte, all of it before the program ends.
fn lengths(tally: &mut Tally) -> Result<(), Difference> {
    let mut long = bytes(8, 2, &[0x10090; 32], &[0; 3 * 64]);
    assert_eq!(long.len(), LONGEST);
    long.resize(1 << 20, 0);
    for length in 0..=LENGTHS {
        hold(tally, &long[..length])?;
    }
    hold(tally, &long)
}

/// Random bytes, half of them behind a good mark and version.
fn scrambled(tally: &mut Tally, random: &mut Random) -> Result<(), Difference> {
    for turn in 0..SCRAMBLED {
        let length = random.below(60) as usize;
        let mut file: Vec<u8> = (0..length).map(|_| random.bits() as u8).collect();
        if turn % 2 == 0 && length >= 5 {
            file[..5].copy_from_slice(b"RSH\x01\x00");
        }
        hold(tally, &file)?;
        let (inputs, steps) = sheets::picked(random, 8);
        arriving(tally, &bytes(8, 2, &inputs, &steps), 1 + length)?;
    }
    Ok(())
}

/// A file by document 01's layout; counts past a byte are cut to their low one.
fn bytes(n: u32, es: u32, inputs: &[u64], steps: &[u8]) -> Vec<u8> {
    let counts = [
        n as u8,
        es as u8,
        inputs.len() as u8,
        (steps.len() / 3) as u8,
    ];
    let mut file = b"RSH\x01\x00".to_vec();
    file.extend(counts);
    for input in inputs {
        file.extend(input.to_le_bytes());
    }
    file.extend(steps);
    file
}

fn hold(tally: &mut Tally, bytes: &[u8]) -> Result<(), Difference> {
    arriving(tally, bytes, bytes.len().max(1))
}

/// One file to the program, in pieces of a length, so that a read may come back with less than the whole.
fn arriving(tally: &mut Tally, bytes: &[u8], piece: usize) -> Result<(), Difference> {
    let expected = file::printed(bytes);
    let got = printed(bytes, piece).map_err(|error| Difference(error.to_string()))?;
    if got != expected.as_bytes() {
        let got = String::from_utf8_lossy(&got);
        let texts = format!("sheetrows {got:?}, second {expected:?}");
        return Err(Difference(format!("file {bytes:02x?}: {texts}")));
    }
    let refused = expected.strip_prefix("NO ");
    let number = refused.and_then(|rest| rest.split(' ').next());
    tally.count_number("file", number.map_or(0, |number| number.parse().unwrap()));
    Ok(())
}

fn printed(bytes: &[u8], piece: usize) -> std::io::Result<Vec<u8>> {
    let mut command = Command::new(PROGRAM);
    let mut program = command
        .stdin(Stdio::piped())
        .stdout(Stdio::piped())
        .spawn()?;
    let mut pipe = program.stdin.take().unwrap();
    for piece in bytes.chunks(piece) {
        // A program that has read enough may close its end.
        if pipe.write_all(piece).is_err() {
            break;
        }
    }
    drop(pipe);
    let output = program.wait_with_output()?;
    match output.status.success() {
        true => Ok(output.stdout),
        false => Err(std::io::Error::other(format!("{}", output.status))),
    }
}
