//! The bounds of one core and its verdict: what the second programs share.
//! Written from the documents alone.
//! Every search is the plain one: from its named start, again and again, until nothing changes.

use crate::second_table::{Refusal, Row, LIMIT, PREEMPTIVE};

pub const CORES: u64 = 4;

// ---- One row ----

fn up(x: u64, t: u64) -> u64 {
    x.div_ceil(t)
}

fn down(x: u64, t: u64) -> u64 {
    x / t
}

/// A row's C and T.
#[derive(Clone, Copy)]
struct Load {
    c: u64,
    t: u64,
}

/// What the bounds of one row depend on.
struct Task<'a> {
    row: &'a Row,
    own: Load,
    higher: Vec<Load>,
    preemptive: Vec<Load>,
    blocking: u64,
}

impl<'a> Task<'a> {
    fn new(on_core: &[&'a Row], row: &'a Row) -> Self {
        let loads = |wanted: &dyn Fn(&Row) -> bool| -> Vec<Load> {
            on_core
                .iter()
                .filter(|r| wanted(r))
                .map(|r| load(r))
                .collect()
        };
        Task {
            row,
            own: load(row),
            higher: loads(&|r| r.priority > row.priority),
            preemptive: loads(&|r| r.kind == PREEMPTIVE),
            blocking: blocking(on_core, row),
        }
    }
}

fn load(row: &Row) -> Load {
    Load {
        c: row.times.iter().sum(),
        t: row.period,
    }
}

/// Blocking B (equation 10, as document 02, §3, sets it): the longest lower part less one tick, 0 if there is no lower row.
fn blocking(on_core: &[&Row], row: &Row) -> u64 {
    if row.kind == PREEMPTIVE {
        return 0;
    }
    let lower = on_core.iter().filter(|r| r.priority < row.priority);
    let longest = lower.flat_map(|r| r.times.iter()).max();
    longest.map_or(0, |ticks| ticks - 1)
}

/// Window L (equations 4 and 9), searched from the row's C; none above the limit.
fn window(task: &Task) -> Option<u64> {
    let mut length = task.own.c;
    while length <= LIMIT {
        let own = up(length, task.own.t) * task.own.c;
        let higher: u64 = task.higher.iter().map(|h| up(length, h.t) * h.c).sum();
        let next = task.blocking + own + higher;
        if next == length {
            return Some(length);
        }
        length = next;
    }
    None
}

/// The least x from `start` up with x = g(x), for a g that never falls and has g(start) >= start.
fn least(start: u64, g: impl Fn(u64) -> u64) -> u64 {
    let mut x = start;
    loop {
        let next = g(x);
        if next == x {
            return x;
        }
        x = next;
    }
}

/// Preemptive row: the end f of job k, part r (equation 6).
fn preemptive_end(task: &Task, k: u64, r: usize) -> u64 {
    let own = (k - 1) * task.own.c + task.row.times[..=r].iter().sum::<u64>();
    least(1, |f| {
        let higher: u64 = task.higher.iter().map(|h| up(f, h.t) * h.c).sum();
        higher + own
    })
}

/// Cooperative row: the start s of job k, part r (equation 11, with down).
fn cooperative_start(task: &Task, k: u64, r: usize) -> u64 {
    let own = (k - 1) * task.own.c + task.row.times[..r].iter().sum::<u64>();
    least(0, |s| {
        let higher: u64 = task.higher.iter().map(|h| (down(s, h.t) + 1) * h.c).sum();
        task.blocking + higher + own
    })
}

/// Cooperative row: the end f of job k, part r (equation 12, with down).
fn cooperative_end(task: &Task, k: u64, r: usize) -> u64 {
    let s = cooperative_start(task, k, r);
    let done = s + task.row.times[r];
    least(done, |f| {
        let cutting_in = |p: &Load| (up(f, p.t) - down(s, p.t) - 1) * p.c;
        done + task.preemptive.iter().map(cutting_in).sum::<u64>()
    })
}

/// The bound of part r: the largest f - (k - 1) T over the jobs (equations 5, 7 and 8).
fn bound(task: &Task, window: u64, r: usize) -> u64 {
    let end = if task.row.kind == PREEMPTIVE {
        preemptive_end
    } else {
        cooperative_end
    };
    let jobs = up(window, task.own.t);
    // No job looked at ends before its release: the window would have ended earlier.
    let taken = |k| end(task, k, r) - (k - 1) * task.own.t;
    (1..=jobs).map(taken).max().unwrap_or(0)
}

/// The bounds of a row's parts, in order.
fn row_bounds(task: &Task, window: u64) -> Vec<u64> {
    let parts = 0..task.row.times.len();
    parts.map(|r| bound(task, window, r)).collect()
}

// ---- One core ----

/// One core's answer: the bounds of its rows in row order, none under code 11, and its code and number.
pub struct Answer<'a> {
    pub bounds: Vec<(&'a Row, Vec<u64>)>,
    pub verdict: Refusal,
}

/// The highest-priority row among those concerned, under this code; 0 if there is none.
fn highest<'a>(code: u64, rows: impl Iterator<Item = &'a Row>) -> Refusal {
    let (code, number) = rows
        .max_by_key(|row| row.priority)
        .map_or((0, 0), |row| (code, row.id));
    Refusal { code, number }
}

/// Whether a row's last part can end after its deadline.
fn is_late(row: &Row, bounds: &[u64]) -> bool {
    bounds.last().is_some_and(|last| *last > row.deadline)
}

/// The answer for a core: code 11 where a window is missing, else 12 where a deadline is missed.
pub fn answer(rows: &[Row], core: u64) -> Answer<'_> {
    let on_core: Vec<&Row> = rows.iter().filter(|row| row.core == core).collect();
    let tasks: Vec<Task> = on_core.iter().map(|row| Task::new(&on_core, row)).collect();
    let windows: Vec<Option<u64>> = tasks.iter().map(window).collect();
    let endless = tasks.iter().zip(&windows).filter(|(_, w)| w.is_none());
    let mut verdict = highest(11, endless.map(|(task, _)| task.row));
    let mut bounds = Vec::new();
    if verdict.code == 0 {
        for (task, window) in tasks.iter().zip(windows.iter().flatten()) {
            bounds.push((task.row, row_bounds(task, *window)));
        }
        let late = bounds.iter().filter(|(row, bounds)| is_late(row, bounds));
        verdict = highest(12, late.map(|(row, _)| *row));
    }
    Answer { bounds, verdict }
}
