//! Times two report programs on the same table files, side by side.
//!
//! Build: rustc -O --edition 2021 docs/src/speed.rs -o target/speed
//! Usage: speed REPORT SECOND [SEED], where each program is the words that start it, one to a line
//!
//! For each table: the time of each program (the least of some runs), report's as a part of second's, and that again with the
//! time on an empty file taken off both: what is left is the work. Where just one of the two is started by an emulator, the
//! times say nothing of each other, and only they are printed.

mod program;
mod splitmix;
mod table;
mod timed;

use splitmix::Random;
use std::process::ExitCode;
use std::time::{Duration, Instant};
use table::{file, row, Row, LIMIT};
use timed::{run, RUNS};

/// How long the runs that a time is the least of may take in all.
const PATIENCE: Duration = Duration::from_secs(20);

/// 60 rows on `cores` cores, each core loaded to about `load` thousandths, periods up to `longest`, `parts` parts a row.
fn sixty(random: &mut Random, cores: u64, load: u64, longest: u64, parts: u64) -> Vec<u8> {
    let on_core = 60 / cores;
    let rows: Vec<Row> = (0..60)
        .map(|i| {
            let period = random.between(longest / 2, longest) >> random.between(0, 3);
            let cost = (period * load / 1000 / on_core).max(parts);
            let mut times = vec![cost / parts; parts as usize];
            times[0] += cost % parts;
            // the first third of a core's rows is preemptive, and higher
            let place = i / cores;
            let kind = u64::from(place * 3 >= on_core);
            row([i + 1, i % cores, kind, 200 - place, period, LIMIT], &times)
        })
        .collect();
    file(&rows)
}

/// The least time of some runs.
fn least(program: &str, file: &[u8]) -> Duration {
    let began = Instant::now();
    let (mut best, _) = run(program, file);
    for _ in 1..RUNS {
        if began.elapsed() > PATIENCE {
            break;
        }
        best = best.min(run(program, file).0);
    }
    best
}

/// One time as a part of another, where that says something.
fn part_of(a: f64, b: f64, telling: bool) -> String {
    if telling {
        format!("{:.3}", a / b)
    } else {
        String::from("-")
    }
}

fn main() -> ExitCode {
    let words: Vec<String> = std::env::args().collect();
    let (Some(report), Some(second)) = (words.get(1), words.get(2)) else {
        eprintln!("usage: speed REPORT SECOND [SEED]");
        return ExitCode::from(2);
    };
    let seed = words.get(3).and_then(|w| w.parse().ok()).unwrap_or(1);
    let mut random = Random(seed);
    let tables = [
        (
            "light: 60 rows on 4 cores, load 0.40",
            sixty(&mut random, 4, 400, 100_000, 2),
        ),
        (
            "light: 60 rows on 1 core, load 0.60",
            sixty(&mut random, 1, 600, 100_000, 2),
        ),
        (
            "60 rows on 1 core, load 0.95, windows near 3 million",
            sixty(&mut random, 1, 950, 1_000_000, 16),
        ),
        (
            "60 rows on 1 core, load 0.999, windows near 1.5 million",
            sixty(&mut random, 1, 999, 50_000, 16),
        ),
        (
            "heavy: 60 rows on 1 core, load 0.999, windows near 5 million",
            sixty(&mut random, 1, 999, 100_000, 16),
        ),
        (
            "heavy: 60 rows on 1 core, load 0.999, windows near 10 million",
            sixty(&mut random, 1, 999, 150_000, 16),
        ),
        (
            "many jobs: T 2 C 1 above one part of 8,388,607",
            file(&[
                row([1, 0, 1, 2, 2, LIMIT], &[1]),
                row([2, 0, 1, 1, LIMIT, LIMIT], &[8_388_607]),
            ]),
        ),
        (
            "many rounds: T 1 C 1 above T 5 C 2",
            file(&[row([1, 0, 1, 2, 1, 1], &[1]), row([2, 0, 1, 1, 5, 5], &[2])]),
        ),
    ];
    let emulated = [report, second].map(|program| program.lines().count() > 1);
    let comparable = emulated[0] == emulated[1];
    if emulated.contains(&true) {
        println!("emulated: rt builds programs for x86-64, and this processor is another");
    }
    if !comparable {
        println!("compare the report's times with another build's on this machine, not with the second program's");
    }
    println!(
        "{:>10} {:>10} {:>7} {:>7}  table",
        "report ms", "second ms", "ratio", "net"
    );
    let milliseconds = |d: Duration| d.as_secs_f64() * 1000.0;
    let start = [report, second].map(|program| milliseconds(least(program, &[])));
    for (name, file) in tables {
        let [a, b] = [report, second].map(|program| milliseconds(least(program, &file)));
        let ratio = part_of(a, b, comparable);
        // too little work says nothing
        let net = part_of(
            a - start[0],
            b - start[1],
            comparable && b - start[1] >= 1.0,
        );
        println!("{a:>10.2} {b:>10.2} {ratio:>7} {net:>7}  {name}");
    }
    ExitCode::SUCCESS
}
