//! The second report program: reads a task table file on standard input and prints its bounds.
//! Written from the documents alone, to be compared with the report program.
//!
//! Build: rustc -O --edition 2021 docs/src/second.rs -o target/second

mod second_bounds;
mod second_input;
mod second_table;

use second_bounds::{answer, CORES};
use second_input::{input, FILE_LOOKED_AT};
use second_table::{read, Row};
use std::io::Write;

/// The lines of one core: its bounds, then its verdict.
fn core_lines(rows: &[Row], core: u64) -> String {
    let answer = answer(rows, core);
    let mut lines = String::new();
    for (row, bounds) in answer.bounds {
        for (r, bound) in bounds.iter().enumerate() {
            lines += &format!("{core} {} {} {bound} {}\n", row.id, r + 1, row.deadline);
        }
    }
    lines + &answer.verdict.line(&format!("core {core}"))
}

/// The whole report on a file.
fn report(bytes: &[u8]) -> String {
    match read(bytes) {
        Err(refusal) => refusal.line("file"),
        Ok(rows) => {
            let cores: String = (0..CORES).map(|core| core_lines(&rows, core)).collect();
            String::from("core task runnable bound deadline\n") + &cores
        }
    }
}

fn main() {
    let report = report(&input(FILE_LOOKED_AT));
    // A failing write is left.
    let _ = std::io::stdout().write_all(report.as_bytes());
}
