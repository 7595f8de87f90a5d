//! The numbers of a table file, one by one: to change them, and to find them again in any file, good or not.

use crate::table::{shortest, values, Row, LIMIT, ROWS, TIME};

/// The report programs look at this many bytes.
pub const LOOKED_AT: usize = 5_124;

/// The kinds of numbers in a file: name and range.
pub const FIELDS: [(&str, u64, u64); 9] = [
    ("rows", 0, 64),
    ("id", 1, 65_535),
    ("core", 0, 3),
    ("type", 0, 1),
    ("priority", 1, 255),
    ("period", 1, LIMIT),
    ("deadline", 1, LIMIT),
    ("parts", 1, 64),
    ("time", 1, LIMIT),
];
pub const PARTS: usize = 7;

/// A number in a file: which field it is, and its bytes.
pub struct Number {
    pub field: usize,
    pub bytes: Vec<u8>,
}

/// The numbers of a table's file.
pub fn numbers(table: &[Row]) -> Vec<Number> {
    values(table)
        .into_iter()
        .map(|(field, value)| Number {
            field,
            bytes: shortest(value),
        })
        .collect()
}

pub fn joined(numbers: &[Number]) -> Vec<u8> {
    numbers
        .iter()
        .flat_map(|number| number.bytes.iter().copied())
        .collect()
}

/// The numbers met in a file, good or not: offset, field and value.
pub fn walk(bytes: &[u8]) -> Vec<(usize, usize, u64)> {
    let mut met: Vec<(usize, usize, u64)> = Vec::new();
    let (mut at, mut field, mut times) = (0, ROWS, 0);
    while at < bytes.len() {
        let offset = at;
        let mut value = 0;
        for group in 0..4 {
            let byte = bytes.get(at).copied().unwrap_or(0);
            value += u64::from(byte % 128) << (7 * group);
            at += 1;
            if byte < 128 {
                break;
            }
        }
        met.push((offset, field, value));
        times = if field == PARTS {
            value
        } else {
            times.max(1) - 1
        };
        field = match field {
            PARTS | TIME if times > 0 => TIME,
            PARTS | TIME => 1,
            other => other + 1,
        };
    }
    // The input may end where a number is still wanted.
    met.push((at, field, 0));
    met
}

/// The rows of a file; none where a number is out of its range.
pub fn rows_met(bytes: &[u8]) -> Vec<Row> {
    let mut table: Vec<Row> = Vec::new();
    let mut met = walk(&bytes[..bytes.len().min(LOOKED_AT)]);
    met.pop();
    for (_, field, value) in met {
        let (_, least, most) = FIELDS[field];
        if value < least || value > most {
            return Vec::new();
        }
        if field == 1 {
            table.push(Row::default());
        }
        let Some(row) = table.last_mut() else {
            continue;
        };
        match field {
            1 => row.id = value,
            2 => row.core = value,
            3 => row.kind = value,
            4 => row.priority = value,
            5 => row.period = value,
            6 => row.deadline = value,
            TIME => row.times.push(value),
            _ => {}
        }
    }
    table.retain(|row| !row.times.is_empty());
    table
}
