//! Damaged files.

use crate::draws::Draws;
use crate::effort::quick;
use crate::files::Named;
use crate::good::{good, largest, lay_out, LARGE, LONG, MIDDLE, MOST_TIMES, SMALL, TINY};
use crate::numbers::{joined, numbers, rows_met, Number, FIELDS};
use crate::table::{file, shortest, Row, LIMIT};

/// A good table with at least one row, mostly a small one, to be damaged.
pub fn victim(draws: &mut Draws) -> Vec<Row> {
    let shape = draws.pick(&[&TINY, &TINY, &SMALL, &SMALL, &SMALL, &MIDDLE, &LONG, &LARGE]);
    good(draws, shape)
}

/// The place of a random number of a random field.
fn some_number(draws: &mut Draws, numbers: &[Number]) -> usize {
    let field = draws.below(FIELDS.len());
    let places: Vec<usize> = (0..numbers.len())
        .filter(|&i| numbers[i].field == field)
        .collect();
    if places.is_empty() {
        0
    } else {
        draws.pick(&places)
    }
}

/// Replaces a number by one that is too long or not in its shortest form.
fn lengthen(draws: &mut Draws, numbers: &mut [Number]) {
    let place = some_number(draws, numbers);
    make_longer(draws, &mut numbers[place].bytes);
}

/// Makes the bytes of a number too many, or not its shortest form.
pub fn make_longer(draws: &mut Draws, bytes: &mut Vec<u8>) {
    let wanted = draws.between(bytes.len() as u64 + 1, 6).max(2) as usize;
    if draws.one_in(4) {
        *bytes = vec![draws.pick(&[0x80, 0xFF]); wanted - 1];
    } else if let Some(last) = bytes.last_mut() {
        *last |= 0x80;
    }
    bytes.resize(wanted - 1, 0x80);
    bytes.push(draws.pick(&[0, 0, 0, 1]));
}

/// Replaces a number by one outside its range.
fn put_outside(draws: &mut Draws, numbers: &mut [Number]) {
    let place = some_number(draws, numbers);
    let (_, least, most) = FIELDS[numbers[place].field];
    numbers[place].bytes = outside(draws, least, most);
}

/// The bytes of a number outside its range.
pub fn outside(draws: &mut Draws, least: u64, most: u64) -> Vec<u8> {
    let far = draws.any_size(most + 1, (1 << 28) - 1);
    let value = match draws.below(4) {
        0 | 1 if least > 0 => 0,
        2 => far,
        _ => most + 1,
    };
    shortest(value)
}

/// Makes rows clash, up to three times: id, priority, or type.
pub fn make_clash(draws: &mut Draws, table: &mut [Row]) {
    for _ in 0..draws.between(1, 3) {
        let (from, to) = (draws.below(table.len()), draws.below(table.len()));
        let Row {
            id, core, priority, ..
        } = table[from];
        match draws.below(7) {
            0 => table[to].id = id,
            1 => table[to].priority = priority,
            2 => (table[to].core, table[to].priority) = (core, priority),
            3..=4 => table[to].kind = 1 - table[to].kind,
            5 => (table[to].core, table[to].kind) = (core, 1 - table[from].kind),
            _ => table[to].core = core,
        }
    }
}

/// A table whose part counts reach 1,024 or go above.
pub fn crowded(draws: &mut Draws) -> Vec<Row> {
    let mut table = lay_out(draws, (17, 64));
    let mut left = MOST_TIMES + draws.pick(&[0, 0, 1, 1, 20]);
    let least = left.div_ceil(table.len() as u64);
    for row in &mut table {
        // Rows after the wanted sum is reached have one part each.
        let parts = draws.between(least, 64).min(left).max(1);
        left -= parts.min(left);
        row.period = LIMIT;
        row.deadline = draws.between(1, LIMIT);
        row.times = (0..parts).map(|_| draws.any_size(1, LIMIT)).collect();
    }
    table
}

/// A table whose part counts reach 1,024 or go above, and perhaps a second fault near the place.
fn too_many_times(draws: &mut Draws) -> Vec<u8> {
    let table = crowded(draws);
    let mut numbers = numbers(&table);
    if draws.one_in(4) {
        let late = numbers.len() / 4 * 3;
        let fault = draws.pick(&[lengthen, put_outside]);
        fault(draws, &mut numbers[late..]);
    }
    let bytes = joined(&numbers);
    if draws.one_in(4) {
        cut(draws, bytes)
    } else {
        bytes
    }
}

/// 63 rows that use all 1,024 times, and a 64th whose part count begins at offset 5,120.
pub fn last_count(draws: &mut Draws, count: &[u8]) -> Vec<u8> {
    let mut table = largest(draws);
    let mut missing = table.pop().map_or(0, |row| row.times.len());
    for row in &mut table {
        let more = missing.min(64 - row.times.len());
        row.times.extend(vec![LIMIT; more]);
        missing -= more;
    }
    let mut bytes = file(&table);
    bytes[0] = 64;
    for value in [1 << 14, 3, 1, 128, LIMIT, LIMIT] {
        bytes.extend(shortest(value));
    }
    bytes.extend(count);
    bytes
}

pub fn cut(draws: &mut Draws, mut bytes: Vec<u8>) -> Vec<u8> {
    bytes.truncate(draws.below(bytes.len()));
    bytes
}

pub fn trail(draws: &mut Draws, mut bytes: Vec<u8>) -> Vec<u8> {
    let length = draws.any_size(1, 6_000) as usize;
    let filler = draws.pick(&[0, 1, 0x80, 0xFF]);
    bytes.extend(vec![filler; length]);
    bytes
}

/// Several of the faults above in one file.
fn several_faults(draws: &mut Draws) -> Vec<u8> {
    let mut table = victim(draws);
    if draws.one_in(2) {
        make_clash(draws, &mut table);
    }
    let mut numbers = numbers(&table);
    for _ in 0..draws.between(1, 2) {
        match draws.below(3) {
            0 => lengthen(draws, &mut numbers),
            1 => put_outside(draws, &mut numbers),
            _ => {}
        }
    }
    let bytes = joined(&numbers);
    match draws.below(3) {
        0 => cut(draws, bytes),
        1 => trail(draws, bytes),
        _ => bytes,
    }
}

/// A good file with a few bytes changed, put in or taken out.
fn flip(draws: &mut Draws) -> Vec<u8> {
    let mut bytes = file(&victim(draws));
    change(draws, &mut bytes);
    if quick(&rows_met(&bytes)) {
        bytes
    } else {
        flip(draws)
    }
}

/// Changes, puts in or takes out a few bytes.
pub fn change(draws: &mut Draws, bytes: &mut Vec<u8>) {
    for _ in 0..draws.between(1, 3) {
        let place = draws.below(bytes.len());
        match draws.below(6) {
            0 => bytes.insert(place, draws.next() as u8),
            1 if bytes.len() > 1 => drop(bytes.remove(place)),
            2 => bytes[place] = draws.next() as u8,
            _ => bytes[place] ^= 1 << draws.below(8),
        }
    }
}

/// Any bytes; every second time mostly small ones, so that the first numbers are often in range.
fn any_bytes(draws: &mut Draws) -> Vec<u8> {
    let length = draws.any_size(0, 9_000) as usize;
    let small = draws.one_in(2);
    let mut bytes: Vec<u8> = (0..length).map(|_| draws.next() as u8).collect();
    if small {
        bytes
            .iter_mut()
            .for_each(|byte| *byte = draws.pick(&[0, 1, 1, 1, 2, 3, *byte]));
    }
    bytes
}

/// A good file with megabytes after it, or megabytes only.
fn megabytes(draws: &mut Draws) -> Vec<u8> {
    let mut bytes = if draws.one_in(4) {
        Vec::new()
    } else {
        file(&victim(draws))
    };
    let length = draws.between(1_000_000, 4_000_000) as usize;
    bytes.extend(vec![draws.next() as u8; length]);
    bytes
}

/// One of the kinds of damage, by its number.
pub fn damaged(draws: &mut Draws, which: usize) -> Named {
    let mut table = victim(draws);
    let mut list = numbers(&table);
    match which {
        0..=1 => ("cut off", cut(draws, joined(&list))),
        2..=3 => {
            lengthen(draws, &mut list);
            ("not the shortest form", joined(&list))
        }
        4..=6 => {
            put_outside(draws, &mut list);
            ("out of range", joined(&list))
        }
        7..=11 => {
            make_clash(draws, &mut table);
            ("clashing rows", file(&table))
        }
        12 => ("too many times", too_many_times(draws)),
        13 => ("bytes after the last row", trail(draws, joined(&list))),
        14..=15 => ("several faults", several_faults(draws)),
        16..=18 => ("changed bytes", flip(draws)),
        19 if draws.one_in(2) => ("megabytes", megabytes(draws)),
        19 => {
            let counts: [&[u8]; 5] = [&[1], &[64], &[0x80; 3], &[0x80; 4], &[0, 1, 1]];
            let count = draws.pick(&counts);
            ("count at offset 5,120", last_count(draws, count))
        }
        _ => ("any bytes", any_bytes(draws)),
    }
}
