//! The chains of a run: a table file, and a list of steps on it.

use crate::damage::{change, cut, damaged, make_longer, outside, trail};
use crate::draws::Draws;
use crate::effort::quick;
use crate::files::{drawn, Named};
use crate::good::{good, shape, Shape, LONG, MIDDLE, SMALL};
use crate::numbers::rows_met;
use crate::table::{file, shortest, Row, LIMIT};

pub const MOST_STEPS: u64 = 32;
const MOST_ID: u64 = 65_535;
const MOST_PARTS: u64 = 64;

/// Tables whose cores are mostly good, and quickly worked out.
const LIGHT: Shape = shape((2, 10), (1, 6), (20, 3_000), (15, 70));

/// A table file and a list, each with what it is there for.
#[derive(Clone)]
pub struct Case {
    pub table: Named,
    pub list: Named,
}

/// A task's id and a part, from 1.
pub type Step = (u64, u64);

impl Case {
    /// The rows of the table; none where a number is out of its range.
    pub fn rows(&self) -> Vec<Row> {
        rows_met(&self.table.1)
    }

    /// The steps of a list whose numbers are good.
    pub fn steps(&self) -> Vec<Step> {
        let mut values = Vec::new();
        let (mut value, mut groups) = (0, 0);
        for byte in &self.list.1 {
            value += u64::from(byte % 128) << (7 * groups);
            groups += 1;
            if *byte < 128 {
                values.push(value);
                (value, groups) = (0, 0);
            }
        }
        let steps = values[1..].chunks_exact(2);
        steps.map(|step| (step[0], step[1])).collect()
    }
}

/// A case of one of the kinds.
pub fn drawn_chain(draws: &mut Draws) -> Case {
    let table = drawn_table(draws);
    let rows = rows_met(&table.1);
    let list = drawn_list(draws, &rows);
    Case { table, list }
}

// ---- Tables ----

fn drawn_table(draws: &mut Draws) -> Named {
    match draws.below(32) {
        0..=5 => ("light table", file(&good(draws, &LIGHT))),
        6..=17 => ("light table with wide deadlines", file(&wide(draws))),
        18..=21 => ("light table with a refused core", file(&spoiled(draws))),
        22..=23 => ("small table", file(&good(draws, &SMALL))),
        24..=25 => ("middle table", file(&good(draws, &MIDDLE))),
        26..=27 => ("table with long windows", file(&good(draws, &LONG))),
        28..=29 => with_a_fault(draws),
        _ => drawn(draws),
    }
}

/// A light table without late tasks.
fn wide(draws: &mut Draws) -> Vec<Row> {
    let mut table = good(draws, &LIGHT);
    table.iter_mut().for_each(|row| row.deadline = LIMIT);
    table
}

/// A light table with a row that asks for too much, or has too short a deadline.
fn spoiled(draws: &mut Draws) -> Vec<Row> {
    let table = good(draws, &LIGHT);
    let mut changed = table.clone();
    let row = &mut changed[draws.below(table.len())];
    if draws.one_in(2) {
        row.deadline = 1;
    } else {
        row.period = draws.between(1, row.times.iter().sum());
    }
    if quick(&changed) {
        changed
    } else {
        table
    }
}

/// A damaged table: any code of a file about as often as another.
fn with_a_fault(draws: &mut Draws) -> Named {
    // Cut off, too long a number, out of range, clashing rows (for three codes), too many times, and bytes behind.
    let which = draws.pick(&[0, 2, 4, 7, 7, 7, 12, 13]);
    damaged(draws, which)
}

// ---- Lists ----

/// The numbers of a list: the count, then task and part of each step.
fn numbers(steps: &[Step]) -> Vec<Vec<u8>> {
    let mut values = vec![steps.len() as u64];
    values.extend(steps.iter().flat_map(|(task, part)| [*task, *part]));
    values.into_iter().map(shortest).collect()
}

/// The bytes of a list.
pub fn list(steps: &[Step]) -> Vec<u8> {
    numbers(steps).concat()
}

/// The range of a list's number, by its place.
fn range(place: usize) -> (u64, u64) {
    match place {
        0 => (1, MOST_STEPS),
        odd if odd % 2 == 1 => (1, MOST_ID),
        _ => (1, MOST_PARTS),
    }
}

fn drawn_list(draws: &mut Draws, rows: &[Row]) -> Named {
    let mut steps = drawn_steps(draws, rows);
    match draws.below(30) {
        0..=18 => ("steps of the table", list(&steps)),
        19..=21 => {
            make_unknown(draws, rows, &mut steps);
            ("an unknown step", list(&steps))
        }
        22..=23 => {
            if draws.one_in(4) {
                make_unknown(draws, rows, &mut steps);
            }
            ("steps and more", trail(draws, list(&steps)))
        }
        24..=25 => ("steps cut off", cut(draws, list(&steps))),
        26..=28 => ("a faulty number", faulty(draws, &steps)),
        _ => {
            let mut bytes = list(&steps);
            change(draws, &mut bytes);
            ("changed bytes", bytes)
        }
    }
}

/// Steps of a table's tasks; of any, where it has none.
fn drawn_steps(draws: &mut Draws, rows: &[Row]) -> Vec<Step> {
    let count = match draws.below(8) {
        0 => 1,
        1 => MOST_STEPS,
        2..=4 => draws.between(2, 5),
        _ => draws.any_size(1, MOST_STEPS),
    };
    let mut steps = Vec::new();
    for _ in 0..count {
        steps.push(next_step(draws, rows, &steps));
    }
    steps
}

/// Any step, or the last one's task again, or any step from before again.
fn next_step(draws: &mut Draws, rows: &[Row], before: &[Step]) -> Step {
    if rows.is_empty() {
        return (draws.any_size(1, MOST_ID), draws.any_size(1, MOST_PARTS));
    }
    let any = draws.below(rows.len());
    let last = before.last();
    let of_last = rows
        .iter()
        .find(|row| Some(row.id) == last.map(|last| last.0));
    let row = match draws.below(5) {
        0 if !before.is_empty() => return draws.pick(before),
        1..=2 => of_last.unwrap_or(&rows[any]),
        _ => &rows[any],
    };
    (row.id, draws.between(1, row.times.len() as u64))
}

/// Takes a step's task or part out of the table; every third time the next step is a later part of that task, so that the
/// first unknown one does not count.
fn make_unknown(draws: &mut Draws, rows: &[Row], steps: &mut [Step]) {
    let place = draws.below(steps.len());
    let (task, part) = unknown(draws, rows, steps[place]);
    steps[place] = (task, part);
    if place + 1 < steps.len() && part < MOST_PARTS && draws.one_in(3) {
        steps[place + 1] = (task, draws.any_size(part + 1, MOST_PARTS));
    }
}

/// A step of which the table has no task or no part.
fn unknown(draws: &mut Draws, rows: &[Row], (mut task, part): Step) -> Step {
    let row = rows.iter().find(|row| row.id == task);
    let parts = row.map_or(MOST_PARTS, |row| row.times.len() as u64);
    if parts < MOST_PARTS && draws.one_in(2) {
        return (task, draws.any_size(parts + 1, MOST_PARTS));
    }
    let any = draws.between(1, MOST_ID);
    task = draws.pick(&[task - 1, task + 1, any]).clamp(1, MOST_ID);
    while rows.iter().any(|row| row.id == task) {
        task = draws.between(1, MOST_ID);
    }
    (task, part)
}

/// A list with a number that is too long, not in its shortest form, or out of its range.
fn faulty(draws: &mut Draws, steps: &[Step]) -> Vec<u8> {
    let mut numbers = numbers(steps);
    // The count stands alone, and is taken more often than its share.
    let any = draws.below(numbers.len());
    let place = draws.pick(&[0, any, any, any]);
    let (least, most) = range(place);
    if draws.one_in(2) {
        make_longer(draws, &mut numbers[place]);
    } else {
        numbers[place] = outside(draws, least, most);
    }
    numbers.concat()
}
