//! Compares two chain programs on random chains over random tables, byte for byte.
//!
//! Build: rustc -O --edition 2021 docs/src/random_chain.rs -o target/random_chain
//! Usage: random_chain CHAIN SECOND COUNT [SEED], where each program is the words that start it, one to a line; the names of
//! two files are put behind them
//!
//! The first cases are a fixed list of telling ones, always run whole; the others, up to COUNT in all, are drawn from the seed.
//! Case number N is the same in every run with the same seed. At the first difference it prints table and list in hex and both
//! outputs, and leaves with 1. It leaves with 1 too where neither program answered some case, or where no drawn case reached
//! something that is wanted: with fewer than 3,000 cases that can be.

mod cases;
mod chain_cases;
mod chain_cover;
mod chains;
mod compare;
mod damage;
mod draws;
mod effort;
mod files;
mod good;
mod numbers;
mod program;
mod splitmix;
mod table;
mod two_files;

use chain_cases::fixed;
use chain_cover::{without_fault, Coverage};
use chains::{drawn_chain, Case};
use compare::{Printed, NO_END};
use draws::{seed, Draws};
use files::Named;
use numbers::LOOKED_AT;
use std::process::ExitCode;
use two_files::Folder;

// ---- Running and comparing ----

/// One case, and what the two programs print for it.
pub struct Run {
    pub index: usize,
    pub case: Case,
    pub is_fixed: bool,
    /// The second program's line.
    pub second: String,
    outputs: [Option<Printed>; 2],
}

/// Case number `index` of a run, and how many of its draws gave up.
fn case(plan: &Plan, index: usize) -> (Case, u64) {
    if let Some(case) = plan.fixed.get(index) {
        return (case.clone(), 0);
    }
    let draws = &mut Draws::of_case(plan.seed, index);
    let case = drawn_chain(draws);
    (case, draws.given_up)
}

/// The line on standard output; empty where there is no answer, or where something is on standard error as well.
fn line(printed: &Option<Printed>) -> String {
    match printed {
        Some([output, error]) if error.is_empty() => String::from_utf8_lossy(output).into_owned(),
        _ => String::new(),
    }
}

/// Runs case number `index` and says whether the two programs print the same.
fn look(plan: &Plan, index: usize, coverage: &mut Coverage) -> Result<bool, String> {
    let (case, given_up) = case(plan, index);
    coverage.add_given_up(given_up);
    let ask =
        |program: &str, table: &[u8], list: &[u8]| plan.folder.ask(program, index, [table, list]);
    let (table, list) = (&case.table.1, &case.list.1);
    let outputs = [
        ask(&plan.chain, table, list)?,
        ask(&plan.second, table, list)?,
    ];
    let run = Run {
        index,
        second: line(&outputs[1]),
        is_fixed: index < plan.fixed.len(),
        case,
        outputs,
    };
    if run.outputs[0] != run.outputs[1] {
        coverage.difference = Some(run);
        return Ok(false);
    }
    let more = match without_fault(&run) {
        Some([table, list]) => line(&ask(&plan.second, &table, &list)?),
        None => String::new(),
    };
    coverage.add(&run, &more);
    Ok(true)
}

fn show(run: &Run) {
    println!("case {}:", run.index);
    show_bytes("table", &run.case.table);
    show_bytes("list", &run.case.list);
    for (which, printed) in ["first", "second"].into_iter().zip(&run.outputs) {
        println!("-- the {which} program printed:");
        match printed {
            None => println!("{NO_END}"),
            Some([output, error]) => {
                print!("{}", String::from_utf8_lossy(output));
                if !error.is_empty() {
                    print!("on standard error: {}", String::from_utf8_lossy(error));
                }
            }
        }
    }
}

fn show_bytes(what: &str, (name, bytes): &Named) {
    let front = bytes.iter().take(LOOKED_AT);
    let shown: Vec<String> = front.map(|byte| format!("{byte:02X}")).collect();
    println!("{what} ({name}), {} bytes:", bytes.len());
    println!("{}", shown.join(" "));
    if bytes.len() > LOOKED_AT {
        println!("(and {} bytes more)", bytes.len() - LOOKED_AT);
    }
}

// ---- The run ----

struct Plan {
    chain: String,
    second: String,
    count: usize,
    seed: u64,
    fixed: Vec<Case>,
    /// How many of the fixed list's draws gave up.
    given_up: u64,
    folder: Folder,
}

/// The plan that the words ask for; none for wrong ones.
fn plan() -> Option<Result<Plan, String>> {
    let words: Vec<String> = std::env::args().skip(1).collect();
    let [chain, second, count, rest @ ..] = &words[..] else {
        return None;
    };
    let (fixed, given_up) = fixed();
    let (count, seed) = (fixed.len().max(count.parse().ok()?), seed(rest)?);
    Some(Folder::new().map(|folder| Plan {
        chain: chain.clone(),
        second: second.clone(),
        count,
        seed,
        fixed,
        given_up,
        folder,
    }))
}

fn run(plan: &Plan) -> Result<Coverage, String> {
    let look = |index, coverage: &mut Coverage| look(plan, index, coverage);
    let mut coverage = compare::all_cases(plan.count, look)?;
    coverage.add_given_up(plan.given_up);
    Ok(coverage)
}

/// Says what the run found, and whether it is as it should be.
fn say(plan: &Plan, coverage: &Coverage) -> bool {
    if let Some(difference) = &coverage.difference {
        show(difference);
        return false;
    }
    let (count, seed, fixed) = (plan.count, plan.seed, plan.fixed.len());
    println!("{count} chains, {fixed} of them fixed, seed {seed}: no difference");
    coverage.print();
    let missing = coverage.never_reached();
    println!("never reached: {missing:?}");
    // Two programs that both say nothing agree on nothing.
    coverage.unanswered == 0 && missing.is_empty()
}

fn main() -> ExitCode {
    let Some(plan) = plan() else {
        eprintln!("usage: random_chain CHAIN SECOND COUNT [SEED]");
        return ExitCode::from(2);
    };
    let found = plan.and_then(|plan| run(&plan).map(|coverage| say(&plan, &coverage)));
    match found {
        Err(error) => {
            eprintln!("{error}");
            ExitCode::from(2)
        }
        Ok(good) => ExitCode::from(u8::from(!good)),
    }
}
