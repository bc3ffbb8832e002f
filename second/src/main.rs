//! The program `second`: sheets, calls, bench figures, published vectors, values and digests.

use second::{calls, digest, figures, file, vectors};
use std::io::{self, BufRead, BufWriter, Read, Write};
use std::process::ExitCode;

const USAGE: &str =
    "second sheet | calls | figures | vectors FILE | values N ES | digest N ES | opdigest N ES OP | digests";

fn main() -> ExitCode {
    let words: Vec<String> = std::env::args().skip(1).collect();
    let words: Vec<&str> = words.iter().map(String::as_str).collect();
    let done = match words[..] {
        ["sheet"] => sheet(),
        ["calls"] => answer_calls(),
        ["figures"] => print_figures(),
        ["vectors", path] => run_vectors(path),
        ["values", n, es] => print_values(n, es),
        ["digest", n, es] => print_digest(n, es),
        ["opdigest", n, es, op] => print_opdigest(n, es, op),
        ["digests"] => print_digests(),
        _ => Err(io::Error::other(USAGE)),
    };
    match done {
        Ok(true) => ExitCode::SUCCESS,
        Ok(false) => ExitCode::FAILURE,
        Err(error) => {
            eprintln!("{error}");
            ExitCode::FAILURE
        }
    }
}

/// Prints what `sheetrows` must print for standard input; whatever the read returned is judged.
fn sheet() -> io::Result<bool> {
    let mut bytes = Vec::new();
    // A read that fails leaves the bytes that came before it, and these are the file.
    let _ = io::stdin().lock().read_to_end(&mut bytes);
    io::stdout().write_all(file::printed(&bytes).as_bytes())?;
    Ok(true)
}

fn answer_calls() -> io::Result<bool> {
    let mut out = BufWriter::new(io::stdout().lock());
    for line in io::stdin().lock().lines() {
        writeln!(out, "{}", calls::answered(&line?))?;
    }
    out.flush()?;
    Ok(true)
}

fn print_figures() -> io::Result<bool> {
    let figures = figures::worked();
    for figure in &figures {
        println!("{} | {} | {}", figure.letter, figure.case, figure.answer);
    }
    Ok(figures.iter().all(|figure| figure.agrees))
}

fn run_vectors(path: &str) -> io::Result<bool> {
    let outcome = vectors::run(&std::fs::read_to_string(path)?);
    for line in &outcome.differing {
        println!("{line}");
    }
    println!("{} agreed", outcome.agreed);
    Ok(outcome.differing.is_empty())
}

/// A decimal word of the command line.
fn number(word: &str) -> io::Result<u32> {
    word.parse().map_err(io::Error::other)
}

/// A refused table or digest as an error that names the refusal.
fn outside<T>(judged: Result<T, second::refusal::Refusal>) -> io::Result<T> {
    judged.map_err(|refusal| io::Error::other(format!("NO {} {}", refusal.number, refusal.place)))
}

fn print_values(n: &str, es: &str) -> io::Result<bool> {
    let mut out = BufWriter::new(io::stdout().lock());
    for value in outside(digest::values(number(n)?, number(es)?))? {
        match value {
            Some(value) => writeln!(out, "{value}")?,
            None => writeln!(out, "NaR")?,
        }
    }
    out.flush()?;
    Ok(true)
}

fn print_digest(n: &str, es: &str) -> io::Result<bool> {
    println!("{}", outside(digest::of_values(number(n)?, number(es)?))?);
    Ok(true)
}

fn print_digests() -> io::Result<bool> {
    for row in outside(digest::table())? {
        println!("{row}");
    }
    Ok(true)
}

fn print_opdigest(n: &str, es: &str, op: &str) -> io::Result<bool> {
    let h = digest::of_operation(number(n)?, number(es)?, number(op)?);
    println!("{}", outside(h)?);
    Ok(true)
}
