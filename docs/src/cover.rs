//! What a run covered.

use crate::compare::Gathered;
use crate::effort::{window, MOST_STEPS};
use crate::numbers::{rows_met, walk, FIELDS, LOOKED_AT};
use crate::Run;
use std::collections::BTreeMap;

#[derive(Default)]
pub struct Coverage {
    pub difference: Option<Run>,
    files: [u64; 9],
    faults: [[u64; 9]; 4],
    cores: [u64; 3],
    rows: usize,
    times: usize,
    bytes: usize,
    window: u64,
    jobs: u64,
    pub unanswered: u64,
    given_up: BTreeMap<&'static str, u64>,
}

impl Gathered for Coverage {
    fn join(&mut self, other: Self) {
        let pairs = self.files.iter_mut().zip(other.files);
        let pairs = pairs.chain(self.cores.iter_mut().zip(other.cores));
        let faults = self
            .faults
            .iter_mut()
            .flatten()
            .zip(other.faults.into_iter().flatten());
        pairs.chain(faults).for_each(|(sum, more)| *sum += more);
        self.rows = self.rows.max(other.rows);
        self.times = self.times.max(other.times);
        self.bytes = self.bytes.max(other.bytes);
        self.window = self.window.max(other.window);
        self.jobs = self.jobs.max(other.jobs);
        self.unanswered += other.unanswered;
        for (name, count) in other.given_up {
            self.add_given_up(name, count);
        }
        let found = [self.difference.take(), other.difference];
        self.difference = found.into_iter().flatten().min_by_key(|run| run.index);
    }
}

impl Coverage {
    pub fn add(&mut self, run: &Run) {
        let words = run.second.split_whitespace().map(|word| word.parse().ok());
        let words: Vec<Option<usize>> = words.collect();
        match words[..] {
            [None, None, Some(code @ 1..=8), None, Some(n)] => self.add_refused(run, code, n),
            _ if run.second.starts_with("core task") => self.add_good(run),
            _ => self.unanswered += 1,
        }
    }

    /// Draws for a file of this name that gave up.
    pub fn add_given_up(&mut self, name: &'static str, count: u64) {
        *self.given_up.entry(name).or_default() += count;
    }

    fn add_refused(&mut self, run: &Run, code: usize, number: usize) {
        self.files[code] += 1;
        let met = walk(&run.bytes[..run.bytes.len().min(LOOKED_AT)]);
        let named = met.iter().find(|(offset, ..)| *offset == number);
        let field = match code {
            // The last number that was begun, or the one wanted at the end.
            1 if run.bytes.last().is_some_and(|b| *b >= 128) => met.iter().rev().nth(1),
            1 => met.last(),
            2 | 3 => named,
            _ => None,
        };
        if let Some((_, field, _)) = field {
            self.faults[code][*field] += 1;
        }
    }

    fn add_good(&mut self, run: &Run) {
        self.files[0] += 1;
        let table = rows_met(&run.bytes);
        for core in (0..4).filter(|core| table.iter().any(|row| row.core == *core)) {
            for (place, code) in [0, 11, 12].into_iter().enumerate() {
                let verdict = format!("core {core} code {code} ");
                self.cores[place] += u64::from(run.second.contains(&verdict));
            }
        }
        self.rows = self.rows.max(table.len());
        self.times = self
            .times
            .max(table.iter().map(|row| row.times.len()).sum());
        self.bytes = self.bytes.max(run.bytes.len());
        for row in &table {
            if let (Some(length), _) = window(&table, row, MOST_STEPS) {
                self.window = self.window.max(length);
                self.jobs = self.jobs.max(length.div_ceil(row.period));
            }
        }
    }

    pub fn print(&self) {
        println!("files by reading code:");
        for (code, count) in self.files.iter().enumerate() {
            println!("  code {code}: {count}");
        }
        for code in 1..=3 {
            let fields = FIELDS.iter().zip(self.faults[code]);
            let counts: Vec<String> = fields
                .map(|((name, ..), n)| format!("{name} {n}"))
                .collect();
            println!("  code {code} by field: {}", counts.join(", "));
        }
        let [good, endless, late] = self.cores;
        println!("cores with rows, in good files:");
        println!("  code 0: {good}, code 11: {endless}, code 12: {late}");
        println!("largest good file: {} bytes", self.bytes);
        println!("most rows: {}; most times: {}", self.rows, self.times);
        println!(
            "longest window: {} ticks; most jobs in a window: {}",
            self.window, self.jobs
        );
        println!("files without an answer: {}", self.unanswered);
        self.print_given_up();
    }

    fn print_given_up(&self) {
        let by_name = self.given_up.iter().filter(|(_, count)| **count > 0);
        let by_name: Vec<String> = by_name.map(|(name, n)| format!("{name} {n}")).collect();
        let sum: u64 = self.given_up.values().sum();
        println!("draws that gave up, and took one row: {sum}");
        if sum > 0 {
            println!("  by file: {}", by_name.join(", "));
        }
    }
}
