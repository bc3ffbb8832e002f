//! Prints three tables: what calls on posits cost, what operations on ranges cost beside their peers, and what a sheet costs.

mod column;
mod peers;
mod plain;
mod posit_table;
mod range_table;
mod ranges;
mod sheets;
mod stack;
mod stopwatch;

const FORMATS: [(u32, u32); 2] = [(8, 2), (16, 2)];

fn main() {
    posit_table::print(&FORMATS);
    println!();
    range_table::print(&FORMATS);
    println!();
    sheets::print(&FORMATS);
}
