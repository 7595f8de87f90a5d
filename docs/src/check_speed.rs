//! Times the check of the table after each keystroke: one build's, or two builds' side by side, and the second program's.
//!
//! Build: rustc -O --edition 2021 docs/src/check_speed.rs -o target/check_speed
//! Usage: check_speed RECHECK [OTHER], where each program is the words that start it, one to a line
//!
//! For each table: the microseconds of one check in each program, RECHECK's as a part of OTHER's, and the microseconds of one
//! check of the second program's, called here. A program's time is the least of some runs, with the time on an empty file,
//! which is refused at once, taken off. The programs run in turn, so that both see the same machine.

mod program;
#[allow(dead_code)] // a check asks for less than a report does
mod second_table;
mod table;
mod timed;

use std::hint::black_box;
use std::process::ExitCode;
use std::time::{Duration, Instant};
use table::{file, row, Row, LIMIT};
use timed::{run, RUNS};

/// How many checks recheck makes in a run.
const CHECKS: u32 = 10_000;

/// A good table: the upper half of each core's rows preemptive, the lower half cooperative, 16 times a row.
fn good(rows: u64) -> Vec<Row> {
    (0..rows)
        .map(|i| {
            let place = i / 4;
            let kind = u64::from(place * 8 >= rows);
            row([i + 1, i % 4, kind, 200 - place, LIMIT, LIMIT], &[1; 16])
        })
        .collect()
}

/// The least time of some runs of each program on a file, one run of each in turn, or which one did not print what it should.
fn least(programs: &[String], file: &[u8], right: &str) -> Result<Vec<Duration>, String> {
    let mut best = vec![Duration::MAX; programs.len()];
    for _ in 0..RUNS {
        for (program, best) in programs.iter().zip(&mut best) {
            let (time, printed) = run(program, file);
            if printed != format!("{right}\n").as_bytes() {
                let name = program.lines().last().unwrap_or_default();
                let printed = String::from_utf8_lossy(&printed);
                let printed = printed.lines().next().unwrap_or_default();
                return Err(format!("{name} printed \"{printed}\", not \"{right}\""));
            }
            *best = time.min(*best);
        }
    }
    Ok(best)
}

/// The least time of as many checks by the second program as recheck makes in a run.
fn second(file: &[u8]) -> Result<Duration, String> {
    let rows = second_table::read(file)
        .map_err(|r| format!("the second program says code {}, not 0", r.code))?;
    let mut best = Duration::MAX;
    for _ in 0..RUNS {
        let began = Instant::now();
        for _ in 0..CHECKS {
            let _ = black_box(second_table::no_clashes(black_box(&rows)));
        }
        best = best.min(began.elapsed());
    }
    Ok(best)
}

/// The microseconds of one check: a run of all of them, less the start, shared among them.
fn one_check(all: Duration, start: Duration) -> f64 {
    (all.as_secs_f64() - start.as_secs_f64()) * 1e6 / f64::from(CHECKS)
}

/// The line of one table.
fn line(programs: &[String], start: &[Duration], rows: u64) -> Result<String, String> {
    let file = file(&good(rows));
    let all = least(programs, &file, "0 0")?;
    let mine = one_check(all[0], start[0]);
    let (other, ratio) = match (all.get(1), start.get(1)) {
        (Some(&all), Some(&start)) => {
            let other = one_check(all, start);
            (format!("{other:.3}"), format!("{:.3}", mine / other))
        }
        _ => (String::from("-"), String::from("-")),
    };
    let second = one_check(second(&file)?, Duration::ZERO);
    Ok(format!(
        "{rows:>4} {mine:>10.3} {other:>10} {ratio:>7} {second:>10.3}"
    ))
}

/// Prints a line for each table, or says what went wrong.
fn compare(programs: &[String]) -> Result<(), String> {
    let start = least(programs, &[], "1 0").map_err(|fault| format!("an empty file: {fault}"))?;
    println!(
        "{:>4} {:>10} {:>10} {:>7} {:>10}",
        "rows", "recheck us", "other us", "ratio", "second us"
    );
    for rows in [8, 16, 32, 64] {
        let line = line(programs, &start, rows).map_err(|fault| format!("{rows} rows: {fault}"))?;
        println!("{line}");
    }
    Ok(())
}

fn main() -> ExitCode {
    let programs: Vec<String> = std::env::args().skip(1).collect();
    if programs.is_empty() || programs.len() > 2 {
        eprintln!("usage: check_speed RECHECK [OTHER]");
        return ExitCode::from(2);
    }
    if programs.iter().any(|program| program.lines().count() > 1) {
        println!("emulated, since rt builds programs for x86-64: compare the builds with each other, not with the second program");
    }
    match compare(&programs) {
        Ok(()) => ExitCode::SUCCESS,
        Err(fault) => {
            eprintln!("check_speed: {fault}");
            ExitCode::FAILURE
        }
    }
}
