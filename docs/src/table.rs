//! A task table, and the file that it is written to.

/// The largest period, deadline and time, and the limit of a window.
pub const LIMIT: u64 = 16_777_215;

/// One task.
#[derive(Clone, Default)]
pub struct Row {
    pub id: u64,
    pub core: u64,
    pub kind: u64,
    pub priority: u64,
    pub period: u64,
    pub deadline: u64,
    pub times: Vec<u64>,
}

/// A task by id, core, type, priority, period and deadline, and its times.
pub fn row(fields: [u64; 6], times: &[u64]) -> Row {
    let [id, core, kind, priority, period, deadline] = fields;
    Row {
        id,
        core,
        kind,
        priority,
        period,
        deadline,
        times: times.to_vec(),
    }
}

/// Where the kinds of numbers stand in a file: the row count, then for each row seven fields and its times.
pub const ROWS: usize = 0;
pub const TIME: usize = 8;

/// The numbers of a table's file in order, each with its kind.
pub fn values(table: &[Row]) -> Vec<(usize, u64)> {
    let mut values = vec![(ROWS, table.len() as u64)];
    for row in table {
        let parts = row.times.len() as u64;
        let fields = [
            row.id,
            row.core,
            row.kind,
            row.priority,
            row.period,
            row.deadline,
            parts,
        ];
        values.extend(
            fields
                .into_iter()
                .enumerate()
                .map(|(i, value)| (i + 1, value)),
        );
        values.extend(row.times.iter().map(|&time| (TIME, time)));
    }
    values
}

/// The shortest form, seven bits a byte, low bits first.
pub fn shortest(mut value: u64) -> Vec<u8> {
    let mut bytes = Vec::new();
    while value > 127 {
        bytes.push((value % 128) as u8 + 128);
        value /= 128;
    }
    bytes.push(value as u8);
    bytes
}

/// The file of a table.
pub fn file(table: &[Row]) -> Vec<u8> {
    let values = values(table).into_iter();
    values.flat_map(|(_, value)| shortest(value)).collect()
}
