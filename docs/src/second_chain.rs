//! The second chain program: reads a task table file and a list of steps, and prints the delay along them.
//! Written from the documents alone, to be compared with the chain program.
//!
//! Build: rustc -O --edition 2021 docs/src/second_chain.rs -o target/second_chain
//! Usage: second_chain TABLE LIST, the names of two files
//!
//! The delay, or what was refused, is one line on standard output. The documents give no limit to what is read of the two files,
//! and none is set here. Of wrong use, and of a file that cannot be read, they say nothing: it leaves with 2.

mod second_bounds;
mod second_table;

use second_bounds::{answer, Answer, CORES};
use second_table::{read, refuse, File, Refusal, Row, MOST_ID, MOST_PARTS};
use std::ffi::OsString;
use std::io::Write;
use std::process::ExitCode;

const MOST_STEPS: u64 = 32;

// ---- The list ----

/// One step: a task's id, and a part from 1.
struct Step {
    task: u64,
    part: u64,
}

/// The steps of a list: 1, 2, 3 in list order, then 8.
fn steps(bytes: &[u8]) -> Result<Vec<Step>, Refusal> {
    let mut list = File::of(bytes);
    let count = list.number(1, MOST_STEPS)?;
    let mut steps = Vec::new();
    for _ in 0..count {
        let task = list.number(1, MOST_ID)?;
        let part = list.number(1, MOST_PARTS)?;
        steps.push(Step { task, part });
    }
    list.end()?;
    Ok(steps)
}

/// The row of each step: 16 with the first step that has no such task or part.
fn rows_of<'a>(table: &'a [Row], steps: &[Step]) -> Result<Vec<&'a Row>, Refusal> {
    let mut rows = Vec::new();
    for (place, step) in steps.iter().enumerate() {
        let is_meant = |row: &&Row| row.id == step.task && step.part <= row.times.len() as u64;
        match table.iter().find(is_meant) {
            Some(row) => rows.push(row),
            None => return refuse(16, place),
        }
    }
    Ok(rows)
}

// ---- The delay ----

/// Whether a step counts: not where the next one is a later part of the same task.
fn counts(step: &Step, next: Option<&Step>) -> bool {
    !next.is_some_and(|next| next.task == step.task && next.part > step.part)
}

/// The bound of a step's part, out of its core's answer.
fn bound(core: &Answer, step: &Step) -> Option<u64> {
    let (_, bounds) = core.bounds.iter().find(|(row, _)| row.id == step.task)?;
    bounds.get(step.part as usize - 1).copied()
}

/// Refuses with the first core, in step order, whose code is not 0.
fn all_good(cores: &[Answer], rows: &[&Row]) -> Result<(), String> {
    for row in rows {
        let verdict = &cores[row.core as usize].verdict;
        if verdict.code != 0 {
            return Err(verdict.line(&format!("core {}", row.core)));
        }
    }
    Ok(())
}

/// The sum of period and bound over the steps that count (equation 3), where all cores of the chain are good.
fn sum(cores: &[Answer], steps: &[Step], rows: &[&Row]) -> u64 {
    let mut sum = 0;
    for (place, (step, row)) in steps.iter().zip(rows).enumerate() {
        if counts(step, steps.get(place + 1)) {
            // A good core has a bound for every part.
            sum += row.period + bound(&cores[row.core as usize], step).unwrap_or(0);
        }
    }
    sum
}

/// The delay along a list, or the line on what was refused.
fn delay(table: &[u8], list: &[u8]) -> Result<u64, String> {
    let table = read(table).map_err(|refusal| refusal.line("file"))?;
    let steps = steps(list).map_err(|refusal| refusal.line("list"))?;
    let rows = rows_of(&table, &steps).map_err(|refusal| refusal.line("list"))?;
    let cores: Vec<Answer> = (0..CORES).map(|core| answer(&table, core)).collect();
    all_good(&cores, &rows)?;
    Ok(sum(&cores, &steps, &rows))
}

// ---- The program ----

/// The bytes of the two files; none for another number of names, or where one cannot be read.
fn files() -> Option<[Vec<u8>; 2]> {
    let names: Vec<OsString> = std::env::args_os().skip(1).collect();
    let [table, list] = &names[..] else {
        return None;
    };
    Some([std::fs::read(table).ok()?, std::fs::read(list).ok()?])
}

fn main() -> ExitCode {
    let Some([table, list]) = files() else {
        eprintln!("usage: second_chain TABLE LIST");
        return ExitCode::from(2);
    };
    let line = match delay(&table, &list) {
        Ok(delay) => format!("delay {delay}\n"),
        Err(line) => line,
    };
    // A failing write is left.
    let _ = std::io::stdout().write_all(line.as_bytes());
    ExitCode::SUCCESS
}
