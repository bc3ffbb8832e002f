//! Compares the proved code with the second program: a line for each group of calls with its counts.
//!
//! The first difference is named and ends the run with 1. With the word `files` it prints the generated sheet files and compares nothing.

mod call;
mod encodings;
mod figures;
mod files;
mod floats;
mod formats;
mod operations;
mod pairs;
mod patterns;
mod picks;
mod random;
mod range_call;
mod range_operations;
mod range_refusals;
mod ranges;
mod readings;
mod refusals;
mod sheets;
mod tally;

use std::process::ExitCode;
use std::time::Instant;
use tally::Outcome;

type Group = (&'static str, fn() -> Outcome);

/// The groups in the order of their lines.
const GROUPS: [Group; 23] = [
    ("bench figures and further cases", figures::every),
    ("published vectors", figures::vectors),
    ("patterns", patterns::every),
    ("comparisons", pairs::all_and_random),
    ("middles", encodings::around_middles),
    ("boundaries", encodings::at_boundaries),
    ("encodings", encodings::random),
    ("operations", operations::all_pairs),
    ("operations, random", operations::random_pairs),
    ("floats", floats::every),
    ("floats of posits", floats::of_patterns),
    ("refusals", refusals::every),
    ("ranges", ranges::all_pairs),
    ("ranges, random", ranges::random_pairs),
    ("operations on ranges", range_operations::all_pairs),
    (
        "operations on ranges, random",
        range_operations::random_pairs,
    ),
    ("refusals of ranges", range_refusals::every),
    ("readings", readings::coming_in),
    ("ranges going out", readings::going_out),
    ("columns", sheets::columns),
    ("columns of one kind", sheets::columns_of_one_kind),
    ("sheets", sheets::sheets),
    ("sheet files", files::every),
];

fn main() -> ExitCode {
    if std::env::args().nth(1).as_deref() == Some("files") {
        files::print_generated();
        return ExitCode::SUCCESS;
    }
    for (name, group) in GROUPS {
        let start = Instant::now();
        match group() {
            Ok(tally) => println!("{name}: {tally} ({} s)", start.elapsed().as_secs()),
            Err(difference) => {
                eprintln!("{name}: {difference}");
                return ExitCode::FAILURE;
            }
        }
    }
    ExitCode::SUCCESS
}
