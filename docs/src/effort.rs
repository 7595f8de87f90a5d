//! How long the plain searches take on a table.

use crate::table::{Row, LIMIT};

/// Tables whose plain searches would take more steps than this are drawn anew.
pub const MOST_STEPS: u64 = 10_000_000;

/// The window of a row, if any, and the rounds of its search, which end at `most`.
pub fn window(table: &[Row], row: &Row, most: u64) -> (Option<u64>, u64) {
    let mut loads = Vec::new();
    let mut longest_lower: u64 = 0;
    for other in table.iter().filter(|other| other.core == row.core) {
        if other.priority >= row.priority {
            loads.push((other.period, other.times.iter().sum()));
        } else if row.kind == 1 {
            longest_lower = other.times.iter().copied().fold(longest_lower, u64::max);
        }
    }
    let blocking = longest_lower.saturating_sub(1);
    let demand = |length: u64| -> u64 {
        let shares = loads
            .iter()
            .map(|(t, c): &(u64, u64)| length.div_ceil(*t) * c);
        blocking + shares.sum::<u64>()
    };
    let mut length: u64 = row.times.iter().sum();
    for round in 1..most {
        if length > LIMIT {
            return (None, round);
        }
        let next = demand(length);
        if next == length {
            return (Some(length), round);
        }
        length = next;
    }
    (None, most)
}

/// Whether the plain searches take about `MOST_STEPS` steps at most.
pub fn quick(table: &[Row]) -> bool {
    let mut steps: u64 = 0;
    for row in table {
        let on_core = table.iter().filter(|other| other.core == row.core);
        let on_core = on_core.count() as u64;
        let most = MOST_STEPS / on_core;
        let (window, rounds) = window(table, row, most);
        let jobs = window.map_or(1, |length| length.div_ceil(row.period));
        let searches = jobs * row.times.len() as u64;
        steps = steps.saturating_add(searches.saturating_mul(rounds * on_core));
        if steps > MOST_STEPS || rounds == most {
            return false;
        }
    }
    true
}
