//! What a run of chains covered.

use crate::chains::{list, Case, Step, MOST_STEPS};
use crate::compare::Gathered;
use crate::table::Row;
use crate::Run;
use std::collections::{BTreeMap, BTreeSet};

/// What the drawn cases of a run have to reach at least once.
const WANTED: [&str; 44] = [
    "file code 1",
    "file code 2",
    "file code 3",
    "file code 4",
    "file code 5",
    "file code 6",
    "file code 7",
    "file code 8",
    "file code, and the list is refused as well",
    "list code 1 at the count",
    "list code 1 at a task",
    "list code 1 at a part",
    "list code 2 at the count",
    "list code 2 at a task",
    "list code 2 at a part",
    "list code 3 at the count",
    "list code 3 at a task",
    "list code 3 at a part",
    "list code 8",
    "list code 8, and a step is unknown as well",
    "list code 8, and a core is refused as well",
    "code 16, an unknown task at step 0",
    "code 16, an unknown task at a later step",
    "code 16, an unknown part at step 0",
    "code 16, an unknown part at a later step",
    "code 16, at a step that does not count",
    "code 16, and an earlier step's core is refused as well",
    "core code 11, the first step's core",
    "core code 11, a later core",
    "core code 12, the first step's core",
    "core code 12, a later core",
    "good: 1 step",
    "good: 32 steps",
    "good: one core",
    "good: two cores",
    "good: three cores",
    "good: four cores",
    "good: in a row, a task's part rises",
    "good: in a row, a task's part rises twice",
    "good: in a row, a task's part stays",
    "good: in a row, a task's part falls",
    "good: a task comes again behind others",
    "good: part numbers rise from task to task",
    "good: no two steps in a row have one task",
];

/// How often each thing was met.
type Counts<K> = BTreeMap<K, u64>;

#[derive(Default)]
pub struct Coverage {
    pub difference: Option<Run>,
    /// Drawn cases by what they reached, and by what their tables and their lists are there for.
    met: Counts<String>,
    tables: Counts<&'static str>,
    lists: Counts<&'static str>,
    /// The largest delay of a drawn case.
    largest: u64,
    pub unanswered: u64,
    given_up: u64,
}

impl Gathered for Coverage {
    fn join(&mut self, other: Self) {
        add(&mut self.met, other.met);
        add(&mut self.tables, other.tables);
        add(&mut self.lists, other.lists);
        self.largest = self.largest.max(other.largest);
        self.unanswered += other.unanswered;
        self.given_up += other.given_up;
        let found = [self.difference.take(), other.difference];
        self.difference = found.into_iter().flatten().min_by_key(|run| run.index);
    }
}

fn add<K: Ord>(sum: &mut Counts<K>, more: Counts<K>) {
    for (key, count) in more {
        *sum.entry(key).or_default() += count;
    }
}

// ---- What an answer says ----

/// The second program's answer.
pub enum Answer {
    Delay(u64),
    File(u64),
    List { code: u64, number: usize },
    Core { core: u64, code: u64 },
}

/// The answer of a line; none if it is no answer.
pub fn answer(line: &str) -> Option<Answer> {
    let words: Vec<&str> = line.strip_suffix('\n')?.split(' ').collect();
    Some(match words[..] {
        ["delay", delay] => Answer::Delay(delay.parse().ok()?),
        ["file", "code", code, "number", _] => Answer::File(code.parse().ok()?),
        ["list", "code", code, "number", number] => Answer::List {
            code: code.parse().ok()?,
            number: number.parse().ok()?,
        },
        ["core", core, "code", code, "number", _] => Answer::Core {
            core: core.parse().ok()?,
            code: code.parse().ok()?,
        },
        _ => return None,
    })
}

// ---- The same case without its fault ----

/// What is left of a refused drawn case without its fault, to see whether more is wrong with it: the list on a table without
/// rows, the list without its tail, or the steps before the unknown one.
pub fn without_fault(run: &Run) -> Option<[Vec<u8>; 2]> {
    let (table, given) = (&run.case.table.1, &run.case.list.1);
    match answer(&run.second)? {
        _ if run.is_fixed => None,
        Answer::File(_) => Some([vec![0], given.clone()]),
        Answer::List { code: 8, number } => Some([table.clone(), given[..number].to_vec()]),
        Answer::List { code: 16, number } if number > 0 => {
            Some([table.clone(), list(&run.case.steps()[..number])])
        }
        _ => None,
    }
}

// ---- What a case reached ----

impl Coverage {
    /// Adds a case, and what the second program says of it without its fault. Of a fixed one only whether it was answered: they
    /// reach all that is wanted, and would hide draws that reach nothing.
    pub fn add(&mut self, run: &Run, without_fault: &str) {
        let Some(found) = answer(&run.second) else {
            self.unanswered += 1;
            return;
        };
        if run.is_fixed {
            return;
        }
        *self.tables.entry(run.case.table.0).or_default() += 1;
        *self.lists.entry(run.case.list.0).or_default() += 1;
        let more = answer(without_fault);
        match found {
            Answer::Delay(delay) => self.add_good(&run.case, delay),
            Answer::File(code) => self.add_file(code, more),
            Answer::List { code: 16, number } => self.add_unknown(&run.case, number, more),
            Answer::List { code, number } => self.add_list(&run.case, code, number, more),
            Answer::Core { core, code } => self.add_core(&run.case, core, code),
        }
    }

    pub fn add_given_up(&mut self, count: u64) {
        self.given_up += count;
    }

    fn reach(&mut self, name: &str) {
        *self.met.entry(String::from(name)).or_default() += 1;
    }

    fn add_file(&mut self, code: u64, more: Option<Answer>) {
        self.reach(&format!("file code {code}"));
        if let Some(Answer::List { code: 1..=8, .. }) = more {
            self.reach("file code, and the list is refused as well");
        }
    }

    fn add_list(&mut self, case: &Case, code: u64, number: usize, more: Option<Answer>) {
        // Every number in front of the faulty one ends with a byte below 128.
        let front = case.list.1[..number].iter();
        let place = match front.filter(|byte| **byte < 128).count() {
            _ if code == 8 => "",
            0 => " at the count",
            odd if odd % 2 == 1 => " at a task",
            _ => " at a part",
        };
        self.reach(&format!("list code {code}{place}"));
        match more {
            Some(Answer::List { .. }) => self.reach("list code 8, and a step is unknown as well"),
            Some(Answer::Core { .. }) => self.reach("list code 8, and a core is refused as well"),
            _ => {}
        }
    }

    fn add_unknown(&mut self, case: &Case, step: usize, more: Option<Answer>) {
        let steps = case.steps();
        let is_task = case.rows().iter().any(|row| row.id == steps[step].0);
        let what = if is_task { "part" } else { "task" };
        let place = if step == 0 { "step 0" } else { "a later step" };
        self.reach(&format!("code 16, an unknown {what} at {place}"));
        let next = steps.get(step + 1);
        if next.is_some_and(|next| rises(&steps[step], next)) {
            self.reach("code 16, at a step that does not count");
        }
        if let Some(Answer::Core { .. }) = more {
            self.reach("code 16, and an earlier step's core is refused as well");
        }
    }

    fn add_core(&mut self, case: &Case, core: u64, code: u64) {
        let (task, _) = case.steps()[0];
        let is_first = |row: &Row| row.id == task && row.core == core;
        let which = if case.rows().iter().any(is_first) {
            "the first step's core"
        } else {
            "a later core"
        };
        self.reach(&format!("core code {code}, {which}"));
    }

    fn add_good(&mut self, case: &Case, delay: u64) {
        let (rows, steps) = (case.rows(), case.steps());
        self.largest = self.largest.max(delay);
        match steps.len() as u64 {
            1 => self.reach("good: 1 step"),
            MOST_STEPS => self.reach("good: 32 steps"),
            _ => {}
        }
        let is_on = |row: &&Row| steps.iter().any(|step| step.0 == row.id);
        let cores: BTreeSet<u64> = rows.iter().filter(is_on).map(|row| row.core).collect();
        match cores.len() {
            1 => self.reach("good: one core"),
            2 => self.reach("good: two cores"),
            3 => self.reach("good: three cores"),
            4 => self.reach("good: four cores"),
            _ => {}
        }
        self.add_pairs(&steps);
    }

    /// What two steps in a row, or three, have of one task.
    fn add_pairs(&mut self, steps: &[Step]) {
        let any_pair = |fits: &dyn Fn(&Step, &Step) -> bool| {
            steps.windows(2).any(|pair| fits(&pair[0], &pair[1]))
        };
        let found = [
            ("good: in a row, a task's part rises", any_pair(&rises)),
            (
                "good: in a row, a task's part stays",
                any_pair(&|a, b| a == b),
            ),
            (
                "good: in a row, a task's part falls",
                any_pair(&|a, b| rises(b, a)),
            ),
            (
                "good: part numbers rise from task to task",
                any_pair(&|a, b| a.0 != b.0 && a.1 < b.1),
            ),
            (
                "good: no two steps in a row have one task",
                steps.len() > 1 && !any_pair(&|a, b| a.0 == b.0),
            ),
            (
                "good: in a row, a task's part rises twice",
                steps
                    .windows(3)
                    .any(|three| rises(&three[0], &three[1]) && rises(&three[1], &three[2])),
            ),
            ("good: a task comes again behind others", comes_again(steps)),
        ];
        for (name, is_so) in found {
            if is_so {
                self.reach(name);
            }
        }
    }

    // ---- At the end ----

    /// What no drawn case reached.
    pub fn never_reached(&self) -> Vec<&'static str> {
        let is_missing = |name: &&str| !self.met.contains_key(*name);
        WANTED.into_iter().filter(is_missing).collect()
    }

    pub fn print(&self) {
        println!("drawn cases by what they reached:");
        for name in WANTED {
            println!("  {name}: {}", self.met.get(name).unwrap_or(&0));
        }
        for (what, counts) in [("tables", &self.tables), ("lists", &self.lists)] {
            println!("drawn {what} by kind:");
            for (name, count) in counts {
                println!("  {name}: {count}");
            }
        }
        println!("largest delay of a drawn case: {} ticks", self.largest);
        println!("cases without an answer: {}", self.unanswered);
        println!("draws that gave up, and took one row: {}", self.given_up);
    }
}

/// Whether the second step is a later part of the first one's task, so that the first does not count.
fn rises(first: &Step, second: &Step) -> bool {
    first.0 == second.0 && first.1 < second.1
}

/// Whether a task is left and comes again.
fn comes_again(steps: &[Step]) -> bool {
    let mut left: Vec<u64> = Vec::new();
    for pair in steps.windows(2) {
        if pair[0].0 != pair[1].0 {
            left.push(pair[0].0);
        }
        if left.contains(&pair[1].0) {
            return true;
        }
    }
    false
}
