//! Compares two report programs on random table files, byte for byte.
//!
//! Build: rustc -O --edition 2021 docs/src/random.rs -o target/random
//! Usage: random REPORT SECOND COUNT [SEED], where each program is the words that start it, one to a line
//!
//! The first files are a fixed list of telling cases, always run whole; the others, up to COUNT
//! in all, are drawn from the seed. File number N is the same in every run with the same seed.
//! At the first difference it prints the file in hex and both outputs, and leaves with 1. It leaves
//! with 1 too where neither program answered some file.

mod cases;
mod compare;
mod cover;
mod damage;
mod draws;
mod effort;
mod files;
mod good;
mod numbers;
mod program;
mod splitmix;
mod table;

use compare::{all_cases, printed, NO_END};
use cover::Coverage;
use draws::{seed, Draws};
use files::{drawn, Named};
use numbers::LOOKED_AT;
use std::process::{ExitCode, Stdio};

// ---- The files of a run ----

/// File number `index` of a run, and how many of its draws gave up.
fn case(fixed: &[Named], seed: u64, index: usize) -> (Named, u64) {
    if let Some(named) = fixed.get(index) {
        return (named.clone(), 0);
    }
    let draws = &mut Draws::of_case(seed, index);
    let named = drawn(draws);
    (named, draws.given_up)
}

// ---- Running and comparing ----

/// What a program prints for the file on its standard input.
fn output(program: &str, bytes: &[u8]) -> Result<String, String> {
    let printed = printed(program, Stdio::inherit(), bytes)?;
    Ok(match printed {
        Some([output, _]) => String::from_utf8_lossy(&output).into_owned(),
        None => format!("{NO_END}\n"),
    })
}

/// One file, what the two programs print for it.
struct Run {
    index: usize,
    name: &'static str,
    bytes: Vec<u8>,
    report: String,
    second: String,
}

/// Runs file number `index` and says whether the two programs print the same.
fn look(plan: &Plan, index: usize, coverage: &mut Coverage) -> Result<bool, String> {
    let ((name, bytes), given_up) = case(&plan.fixed, plan.seed, index);
    coverage.add_given_up(name, given_up);
    let report = output(&plan.report, &bytes)?;
    let second = output(&plan.second, &bytes)?;
    let run = Run {
        index,
        name,
        bytes,
        report,
        second,
    };
    coverage.add(&run);
    let same = run.report == run.second;
    if !same {
        coverage.difference = Some(run);
    }
    Ok(same)
}

fn show(run: &Run) {
    let bytes = &run.bytes;
    println!("file {}: {}, {} bytes", run.index, run.name, bytes.len());
    let shown: Vec<String> = bytes
        .iter()
        .take(LOOKED_AT)
        .map(|b| format!("{b:02X}"))
        .collect();
    println!("{}", shown.join(" "));
    if bytes.len() > LOOKED_AT {
        println!("(and {} bytes more)", bytes.len() - LOOKED_AT);
    }
    println!("-- the first program printed:\n{}", run.report);
    println!("-- the second program printed:\n{}", run.second);
}

// ---- The run ----

struct Plan {
    report: String,
    second: String,
    count: usize,
    seed: u64,
    fixed: Vec<Named>,
    /// How many of the fixed list's draws gave up.
    given_up: u64,
}

fn plan() -> Option<Plan> {
    let words: Vec<String> = std::env::args().skip(1).collect();
    let [report, second, count, rest @ ..] = &words[..] else {
        return None;
    };
    let (fixed, given_up) = cases::fixed();
    Some(Plan {
        report: report.clone(),
        second: second.clone(),
        count: fixed.len().max(count.parse().ok()?),
        seed: seed(rest)?,
        fixed,
        given_up,
    })
}

fn run(plan: &Plan) -> Result<Coverage, String> {
    let look = |index, coverage: &mut Coverage| look(plan, index, coverage);
    let mut coverage = all_cases(plan.count, look)?;
    coverage.add_given_up("fixed list", plan.given_up);
    Ok(coverage)
}

fn main() -> ExitCode {
    let Some(plan) = plan() else {
        eprintln!("usage: random REPORT SECOND COUNT [SEED]");
        return ExitCode::from(2);
    };
    match run(&plan) {
        Err(error) => {
            eprintln!("{error}");
            ExitCode::from(2)
        }
        Ok(Coverage {
            difference: Some(run),
            ..
        }) => {
            show(&run);
            ExitCode::from(1)
        }
        Ok(coverage) => {
            let (count, seed, fixed) = (plan.count, plan.seed, plan.fixed.len());
            println!("{count} files, {fixed} of them fixed, seed {seed}: no difference");
            coverage.print();
            // Two programs that both say nothing agree on nothing.
            ExitCode::from(u8::from(coverage.unanswered > 0))
        }
    }
}
