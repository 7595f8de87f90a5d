//! Good tables, drawn in several shapes.

use crate::draws::Draws;
use crate::effort::quick;
use crate::table::{row, Row, LIMIT};

pub const MOST_TIMES: u64 = 1_024;

/// From which numbers a good table is drawn; the load of a core is in percent.
pub struct Shape {
    rows: (u64, u64),
    parts: (u64, u64),
    periods: (u64, u64),
    load: (u64, u64),
}

type Pair = (u64, u64);

pub const fn shape(rows: Pair, parts: Pair, periods: Pair, load: Pair) -> Shape {
    Shape {
        rows,
        parts,
        periods,
        load,
    }
}

pub const TINY: Shape = shape((1, 4), (1, 3), (1, 30), (60, 110));
pub const SMALL: Shape = shape((2, 8), (1, 4), (4, 300), (60, 103));
pub const MIDDLE: Shape = shape((1, 24), (1, 12), (40, 9_000), (40, 99));
pub const LONG: Shape = shape((1, 12), (1, 8), (9_000, LIMIT), (5, 110));
pub const HEAVY: Shape = shape((2, 4), (1, 2), (40, 4_000), (97, 99));
pub const LARGE: Shape = shape((30, 64), (1, 40), (2_000, 90_000), (5, 95));
pub const FULL: Shape = shape((64, 64), (16, 16), (3_000, 90_000), (5, 90));

/// The table in place of one that was not found.
fn one_row(draws: &mut Draws) -> Vec<Row> {
    draws.given_up += 1;
    vec![row([1, 0, 0, 5, 50, 50], &[1])]
}

/// A good table of the shape whose bounds are quickly worked out.
pub fn good(draws: &mut Draws, shape: &Shape) -> Vec<Row> {
    for _ in 0..40 {
        let table = draw(draws, shape);
        if quick(&table) {
            return table;
        }
    }
    one_row(draws)
}

fn draw(draws: &mut Draws, shape: &Shape) -> Vec<Row> {
    let mut table = lay_out(draws, shape.rows);
    share_parts(draws, &mut table, shape.parts);
    for core in 0..4 {
        let load = draws.between(shape.load.0, shape.load.1);
        let mut on_core: Vec<&mut Row> = table.iter_mut().filter(|r| r.core == core).collect();
        let weights: Vec<u64> = on_core.iter().map(|_| draws.between(1, 10)).collect();
        let whole: u64 = weights.iter().sum::<u64>() * 100;
        for (row, weight) in on_core.iter_mut().zip(weights) {
            row.period = draws.any_size(shape.periods.0, shape.periods.1);
            spread(draws, &mut row.times, row.period * load * weight / whole);
        }
    }
    set_deadlines(draws, &mut table);
    table
}

/// Rows with ids, cores, types and priorities that do not clash.
pub fn lay_out(draws: &mut Draws, rows: (u64, u64)) -> Vec<Row> {
    let count = draws.between(rows.0, rows.1) as usize;
    let cores = draws.different(4, 0, 3);
    let cores_used = draws.pick(&[1, 1, 2, 3, 4]);
    let (most_id, most_priority) = (draws.pick(&[200, 65_535]), draws.pick(&[70, 255]));
    let ids = draws.different(count, 1, most_id);
    let priorities = draws.different(count, 1, most_priority);
    let highest = priorities.iter().copied().max().unwrap_or(1);
    // Rows above the line are preemptive, those up to it cooperative.
    let lines: Vec<u64> = (0..4).map(|_| draws.between(0, highest)).collect();
    let mut table = Vec::new();
    for (id, priority) in ids.into_iter().zip(priorities) {
        let core = cores[draws.below(cores_used)];
        let kind = u64::from(priority <= lines[core as usize]);
        table.push(Row {
            id,
            core,
            kind,
            priority,
            ..Row::default()
        });
    }
    share_priorities(draws, &mut table);
    table
}

/// Gives a row the priority of a row of its type on another core, where the own core has none.
fn share_priorities(draws: &mut Draws, table: &mut [Row]) {
    for place in 0..table.len() {
        let wanted = table[draws.below(table.len())].clone();
        let mut changed = table.to_vec();
        changed[place].priority = wanted.priority;
        if draws.one_in(2) && !clashing(&changed) {
            table[place].priority = wanted.priority;
        }
    }
}

fn clashing(table: &[Row]) -> bool {
    let upside_down = |a: &Row, b: &Row| a.kind > b.kind && a.priority > b.priority;
    let on_core = |a: &Row, b: &Row| a.priority == b.priority || upside_down(a, b);
    let clash = |a: &Row, b: &Row| a.id == b.id || (a.core == b.core && on_core(a, b));
    let pairs = (0..table.len()).flat_map(|i| (0..table.len()).map(move |j| (i, j)));
    pairs
        .into_iter()
        .any(|(i, j)| i != j && clash(&table[i], &table[j]))
}

/// Part counts of at most 1,024 in all; the times are still to be drawn.
fn share_parts(draws: &mut Draws, table: &mut [Row], parts: (u64, u64)) {
    let mut left = MOST_TIMES - table.len() as u64;
    for row in table {
        let extra = (draws.any_size(parts.0, parts.1) - 1).min(left);
        row.times = vec![1; 1 + extra as usize];
        left -= extra;
    }
}

/// Shares a sum out among the times, each at least 1.
fn spread(draws: &mut Draws, times: &mut [u64], sum: u64) {
    let mut rest = sum.saturating_sub(times.len() as u64);
    let mut parts = times.len() as u64;
    for time in times {
        let most = (2 * rest / parts).min(rest);
        let extra = if parts == 1 {
            rest
        } else {
            draws.between(0, most)
        };
        *time = (1 + extra).min(LIMIT);
        rest -= extra;
        parts -= 1;
    }
}

/// All deadlines wide, or equal to the periods, or of all sizes.
fn set_deadlines(draws: &mut Draws, table: &mut [Row]) {
    let way = draws.below(4);
    for row in table {
        let sum: u64 = row.times.iter().sum();
        let wide = row.period * 20;
        let deadline = match if way == 3 { draws.below(6) } else { way } {
            0 => wide,
            1 => row.period,
            2 => draws.between(row.period, wide),
            3 => draws.between(sum, row.period * 2),
            4 => draws.pick(&[1, LIMIT]),
            _ => sum + draws.between(0, 3),
        };
        row.deadline = deadline.clamp(1, LIMIT);
    }
}

/// One row with a long time among rows with short periods: thousands of jobs in a window.
pub fn many_jobs(draws: &mut Draws) -> Vec<Row> {
    for _ in 0..40 {
        let mut table = lay_out(draws, (2, 3));
        for (place, row) in table.iter_mut().enumerate() {
            row.core = 0;
            row.kind = u64::from(row.priority < 30);
            row.period = if place == 0 {
                4_000_000
            } else {
                draws.any_size(5, 500)
            };
            row.times = vec![1; draws.between(1, 2) as usize];
            let load = draws.between(10, 45);
            spread(draws, &mut row.times, row.period * load / 100);
        }
        set_deadlines(draws, &mut table);
        if !clashing(&table) && quick(&table) {
            return table;
        }
    }
    one_row(draws)
}

/// A good table with many numbers at the ends of their ranges.
pub fn extreme(draws: &mut Draws) -> Vec<Row> {
    for _ in 0..40 {
        let mut table = lay_out(draws, (1, 6));
        for row in &mut table {
            let parts = if draws.one_in(3) { 64 } else { 1 };
            let time = draws.pick(&[1, 1, 1, 2, 200_000, LIMIT - 1, LIMIT]);
            row.times = vec![time; parts];
            row.times[0] = draws.pick(&[1, time, LIMIT]);
            row.period = draws.pick(&[1, 2, 127, 128, LIMIT / 2, LIMIT - 1, LIMIT, LIMIT]);
            row.deadline = draws.pick(&[1, LIMIT - 1, LIMIT, row.period]);
        }
        if quick(&table) {
            return table;
        }
    }
    one_row(draws)
}

/// 64 rows and 1,024 times, every number as long as its range lets it: 5,121 bytes.
pub fn largest(draws: &mut Draws) -> Vec<Row> {
    let long = |draws: &mut Draws| draws.between(1 << 21, LIMIT);
    let few = draws.between(3, 45) as usize;
    let ids = draws.different(64, 16_384, 65_535);
    let priorities = draws.different(64, 128, 255);
    let line = draws.between(127, 255);
    let mut table = Vec::new();
    for place in 0..64 {
        // 48 rows of one part, some of them with cores 0 to 2 to themselves, and 16 of 61 parts.
        let core = if place < few.min(12) {
            place as u64 % 3
        } else {
            3
        };
        let parts = if place < 48 { 1 } else { 61 };
        let priority = priorities[place];
        let mut row = Row {
            id: ids[place],
            core,
            priority,
            ..Row::default()
        };
        row.kind = u64::from(priority <= line);
        row.period = long(draws);
        row.deadline = long(draws);
        row.times = (0..parts).map(|_| draws.any_size(1 << 21, LIMIT)).collect();
        table.push(row);
    }
    for place in (1..64).rev() {
        table.swap(place, draws.below(place + 1));
    }
    table
}
