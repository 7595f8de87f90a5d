//! The fixed list of telling chains.

use crate::cases::{self, hex};
use crate::chains::{list, Case, Step, MOST_STEPS};
use crate::files::Named;
use crate::numbers::rows_met;
use crate::table::{file, row, Row, LIMIT};

/// The fixed list: chains on good tables, refused lists, refused cores, and every table of the reports; and how many of its
/// draws gave up.
pub fn fixed() -> (Vec<Case>, u64) {
    let (tables, given_up) = cases::fixed();
    let mut cases = set_a_cases();
    cases.extend(list_cases());
    cases.extend(core_cases());
    cases.extend(order_cases());
    cases.push(largest_delay());
    cases.extend(tables.into_iter().map(with_its_parts));
    (cases, given_up)
}

fn case(table: &Named, name: &'static str, list: Vec<u8>) -> Case {
    Case {
        table: table.clone(),
        list: (name, list),
    }
}

fn set_a() -> Named {
    let rows = [
        row([1, 0, 0, 3, 5, 5], &[1]),
        row([2, 0, 1, 2, 10, 10], &[1, 2]),
        row([3, 0, 1, 1, 20, 20], &[2, 3]),
    ];
    ("Set A", file(&rows))
}

/// The first steps that take turns.
fn turns(of: &[Step], count: u64) -> Vec<Step> {
    of.iter().copied().cycle().take(count as usize).collect()
}

fn set_a_cases() -> Vec<Case> {
    let chains: Vec<(&'static str, Vec<Step>)> = vec![
        ("23 by document 02", vec![(1, 1), (2, 1), (2, 2)]),
        ("one step", vec![(1, 1)]),
        ("a last part", vec![(3, 2)]),
        ("a first part", vec![(3, 1)]),
        ("rising", vec![(2, 1), (2, 2)]),
        ("the same part twice", vec![(2, 2), (2, 2)]),
        ("falling", vec![(2, 2), (2, 1)]),
        (
            "rising, with another task between",
            vec![(2, 1), (1, 1), (2, 2)],
        ),
        ("a larger part of another task", vec![(2, 1), (3, 2)]),
        ("the same and rising", vec![(2, 1), (2, 1), (2, 2)]),
        ("rising and the same", vec![(2, 1), (2, 2), (2, 2)]),
        ("rising and falling", vec![(2, 1), (2, 2), (2, 1)]),
        ("falling and rising", vec![(2, 2), (2, 1), (2, 2)]),
        ("rising twice", vec![(2, 1), (2, 2), (3, 1), (3, 2)]),
        ("32 steps", turns(&[(1, 1)], MOST_STEPS)),
        (
            "32 steps, rising and falling",
            turns(&[(3, 1), (3, 2)], MOST_STEPS),
        ),
        (
            "32 steps, from task to task",
            turns(&[(1, 1), (2, 2), (3, 1)], MOST_STEPS),
        ),
        ("an unknown task", vec![(4, 1)]),
        (
            "an unknown task behind the others",
            vec![(1, 1), (2, 2), (4, 1)],
        ),
        ("an unknown part", vec![(1, 2)]),
        ("a part too many at step 2", vec![(1, 1), (2, 2), (2, 3)]),
        ("a part of the row behind", vec![(2, 1), (1, 2), (9, 9)]),
        ("unknown parts, rising", vec![(2, 3), (2, 4)]),
        ("an unknown task, rising", vec![(4, 1), (4, 2)]),
        ("part 64", vec![(3, 64)]),
        ("task 65,535", vec![(65_535, 64)]),
    ];
    let chains = chains.into_iter();
    chains
        .map(|(name, steps)| case(&set_a(), name, list(&steps)))
        .collect()
}

/// Lists that are refused, and those beside them.
fn list_cases() -> Vec<Case> {
    let largest = list(&turns(&[(65_535, 64)], MOST_STEPS));
    let last = |number: &str| [&largest[..128], &hex(number)].concat();
    let megabytes = vec![1; 3_000_000];
    let lists = [
        ("no bytes", hex("")),
        ("count 0", hex("00")),
        ("count 0 and steps", hex("00 01 01")),
        ("count 33", list(&turns(&[(1, 1)], MOST_STEPS + 1))),
        ("count 33 alone", hex("21")),
        ("count 128", hex("80 01")),
        ("80 00 as the count", hex("80 00")),
        ("80 as the count", hex("80")),
        ("four bytes as the count", hex("80 80 80 80")),
        ("no step", hex("01")),
        ("no part", hex("01 01")),
        ("half a task", hex("01 81")),
        ("half a part", hex("01 01 81")),
        ("no second step", hex("02 01 01")),
        ("task 0", hex("01 00 01")),
        ("task 0, cut off behind it", hex("01 00")),
        ("task 65,536", hex("01 80 80 04 01")),
        ("part 0", hex("01 01 00")),
        ("part 65", hex("01 01 41")),
        ("part 65 of an unknown task", hex("01 07 41")),
        ("part 128", hex("01 01 80 01")),
        ("81 00 as a task", hex("01 81 00 01")),
        ("81 00 as a part", hex("01 01 81 00")),
        ("five bytes as a task", hex("01 80 80 80 80 01 01")),
        ("a later task faulty", hex("03 01 01 02 01 00 01")),
        ("a later part faulty", hex("03 01 01 02 41 00 01")),
        ("a byte behind", hex("01 01 01 00")),
        ("a byte behind an unknown task", hex("01 07 01 00")),
        ("a step behind", hex("01 01 01 02 02")),
        (
            "megabytes behind",
            [&hex("01 01 01")[..], &megabytes].concat(),
        ),
        ("megabytes", megabytes),
        ("129 bytes and one more", last("40 00")),
        ("129 bytes and five more", last("40 80 80 80 80 80")),
        ("part at 128: missing", last("")),
        ("part at 128: 1", last("80 80 80")),
        ("part at 128: 2 at the end", last("80 80 80 80")),
        ("part at 128: 2 with more", last("80 80 80 80 80")),
        ("part at 128: 2, zero last", last("81 80 80 00")),
        ("part at 128: 3, four bytes", last("80 80 80 01")),
        ("129 bytes", largest.clone()),
    ];
    let case = |(name, list)| case(&set_a(), name, list);
    lists.into_iter().map(case).collect()
}

/// Core 0 is good, on 1 task 12 is late, on 2 task 22 has no window, on 3 nothing is wrong; each core's upper task has three parts.
fn four_cores() -> Named {
    let upper = |id: u64, core: u64| row([id, core, 1, 9, 100, 100], &[3, 9, 5]);
    let lower =
        |id: u64, core: u64, fields: [u64; 2]| row([id, core, 1, 2, fields[0], fields[1]], &[4, 7]);
    let rows: Vec<Row> = vec![
        lower(22, 2, [10, 900]),
        upper(31, 3),
        upper(11, 1),
        lower(2, 0, [200, 200]),
        upper(1, 0),
        lower(12, 1, [200, 5]),
        lower(32, 3, [60, 900]),
        upper(21, 2),
    ];
    ("four cores", file(&rows))
}

fn core_cases() -> Vec<Case> {
    let chains: Vec<(&'static str, Vec<Step>)> = vec![
        ("one core, three parts rising", vec![(1, 1), (1, 2), (1, 3)]),
        ("one core, a part left out", vec![(1, 1), (1, 3)]),
        (
            "one core, rising, falling, rising",
            vec![(1, 2), (1, 3), (1, 1), (1, 2)],
        ),
        ("two good cores", vec![(1, 1), (31, 2), (32, 2)]),
        (
            "two good cores and back",
            vec![(1, 1), (31, 2), (1, 2), (31, 3)],
        ),
        ("the second core is late", vec![(1, 1), (11, 1)]),
        ("the first core is late", vec![(11, 1), (1, 1)]),
        ("the late task itself", vec![(12, 2)]),
        ("the second core has no window", vec![(31, 1), (21, 1)]),
        ("late, then no window", vec![(11, 1), (21, 1)]),
        ("no window, then late", vec![(2, 1), (21, 1), (11, 1)]),
        ("an unknown task behind a late core", vec![(11, 1), (7, 1)]),
        (
            "an unknown part behind a late core",
            vec![(11, 1), (1, 1), (2, 3)],
        ),
        ("an unknown part of a late core's task", vec![(12, 3)]),
        (
            "an unknown task behind a core without a window",
            vec![(21, 1), (7, 1)],
        ),
        ("an unknown task before a late core", vec![(7, 1), (11, 1)]),
    ];
    let chains = chains.into_iter();
    chains
        .map(|(name, steps)| case(&four_cores(), name, list(&steps)))
        .collect()
}

/// What comes first: the table's codes, the list's, then 16, then the cores'.
fn order_cases() -> Vec<Case> {
    let clashing = row([1, 0, 0, 5, 50, 50], &[1]);
    let refused = ("one row twice", file(&[clashing.clone(), clashing]));
    let no_rows = ("no rows", hex("00"));
    vec![
        case(&refused, "no bytes", hex("")),
        case(&refused, "an unknown task", list(&[(7, 1)])),
        case(&refused, "a good step", list(&[(1, 1)])),
        case(&("no table", hex("")), "no bytes", hex("")),
        case(&no_rows, "no bytes", hex("")),
        case(&no_rows, "one step", list(&[(1, 1)])),
        case(
            &four_cores(),
            "a byte behind a late core's step",
            hex("01 0B 01 00"),
        ),
        case(
            &four_cores(),
            "half a step behind a late core's",
            hex("02 0B 01 01"),
        ),
        case(
            &four_cores(),
            "an unknown task, and half a step",
            hex("02 07 01 01"),
        ),
    ]
}

/// 32 times the largest period and the largest bound that a deadline lets be.
fn largest_delay() -> Case {
    let table = file(&[row([1, 0, 0, 1, LIMIT, LIMIT], &[LIMIT])]);
    let steps = turns(&[(1, 1)], MOST_STEPS);
    case(&("T = C = D = 16,777,215", table), "32 steps", list(&steps))
}

/// A table with a chain of its first parts.
fn with_its_parts(table: Named) -> Case {
    let rows = rows_met(&table.1);
    let parts = |row: &Row| {
        let id = row.id;
        (1..=row.times.len() as u64).map(move |part| (id, part))
    };
    let steps: Vec<Step> = rows
        .iter()
        .flat_map(parts)
        .take(MOST_STEPS as usize)
        .collect();
    let list = if steps.is_empty() {
        hex("01 01 01")
    } else {
        list(&steps)
    };
    case(&table, "its first parts", list)
}
