//! The task table and its file, read and judged: what the second programs share.
//! Written from the description alone.

pub const MOST_ROWS: u64 = 64;
pub const MOST_TIMES: u64 = 1_024;
pub const MOST_ID: u64 = 65_535;
pub const MOST_PARTS: u64 = 64;
/// The largest period, deadline and time, and the limit of a window.
pub const LIMIT: u64 = 16_777_215;
pub const PREEMPTIVE: u64 = 0;
pub const COOPERATIVE: u64 = 1;

/// One task.
pub struct Row {
    pub id: u64,
    pub core: u64,
    pub kind: u64,
    pub priority: u64,
    pub period: u64,
    pub deadline: u64,
    pub times: Vec<u64>,
}

/// A code and the number it carries.
pub struct Refusal {
    pub code: u64,
    pub number: u64,
}

impl Refusal {
    /// The line that says it of something.
    pub fn line(&self, of: &str) -> String {
        format!("{of} code {} number {}\n", self.code, self.number)
    }
}

pub fn refuse<T>(code: u64, number: usize) -> Result<T, Refusal> {
    Err(Refusal {
        code,
        number: number as u64,
    })
}

// ---- The file ----

/// The file's bytes and the offset reached.
pub struct File<'a> {
    bytes: &'a [u8],
    at: usize,
}

impl<'a> File<'a> {
    pub fn of(bytes: &'a [u8]) -> File<'a> {
        File { bytes, at: 0 }
    }

    /// The next number, in its range: codes 1, 2 and 3.
    pub fn number(&mut self, least: u64, most: u64) -> Result<u64, Refusal> {
        let first = self.at;
        let value = self.any_number()?;
        if value < least || value > most {
            return refuse(3, first);
        }
        Ok(value)
    }

    /// Groups of seven bits, low group first, at most four: codes 1 and 2.
    fn any_number(&mut self) -> Result<u64, Refusal> {
        let first = self.at;
        let mut value = 0;
        for group in 0..4 {
            let Some(&byte) = self.bytes.get(self.at) else {
                return refuse(1, self.bytes.len());
            };
            self.at += 1;
            value += u64::from(byte % 128) << (7 * group);
            if byte == 0 && group > 0 {
                return refuse(2, first);
            }
            if byte < 128 {
                return Ok(value);
            }
        }
        refuse(2, first)
    }

    /// Nothing follows: code 8.
    pub fn end(&self) -> Result<(), Refusal> {
        if self.at < self.bytes.len() {
            return refuse(8, self.at);
        }
        Ok(())
    }

    /// One row; `total` counts the times of all rows so far: code 7.
    fn row(&mut self, total: &mut u64) -> Result<Row, Refusal> {
        let mut row = Row {
            id: self.number(1, MOST_ID)?,
            core: self.number(0, 3)?,
            kind: self.number(PREEMPTIVE, COOPERATIVE)?,
            priority: self.number(1, 255)?,
            period: self.number(1, LIMIT)?,
            deadline: self.number(1, LIMIT)?,
            times: Vec::new(),
        };
        let offset = self.at;
        let count = self.number(1, MOST_PARTS)?;
        *total += count;
        if *total > MOST_TIMES {
            return refuse(7, offset);
        }
        for _ in 0..count {
            row.times.push(self.number(1, LIMIT)?);
        }
        Ok(row)
    }
}

/// The whole file: 1, 2, 3, 7 in file order, then 8, then 4, 5, 6.
pub fn read(bytes: &[u8]) -> Result<Vec<Row>, Refusal> {
    let mut file = File::of(bytes);
    let count = file.number(0, MOST_ROWS)?;
    let mut rows = Vec::new();
    let mut total = 0;
    for _ in 0..count {
        rows.push(file.row(&mut total)?);
    }
    file.end()?;
    no_clashes(&rows)?;
    Ok(rows)
}

// ---- The rows beside each other ----

/// Refuses rows that clash: 4 over the whole table, then 5, then 6.
pub fn no_clashes(rows: &[Row]) -> Result<(), Refusal> {
    clash(rows, 4, |a, b| a.id == b.id)?;
    clash(rows, 5, |a, b| a.core == b.core && a.priority == b.priority)?;
    clash(rows, 6, |a, b| upside_down(a, b) || upside_down(b, a))
}

/// Refuses with the first row that clashes with an earlier row.
fn clash(rows: &[Row], code: u64, clashing: fn(&Row, &Row) -> bool) -> Result<(), Refusal> {
    for (place, row) in rows.iter().enumerate() {
        if rows[..place].iter().any(|earlier| clashing(earlier, row)) {
            return refuse(code, place);
        }
    }
    Ok(())
}

/// A cooperative row above a preemptive one on the same core.
fn upside_down(a: &Row, b: &Row) -> bool {
    a.core == b.core && a.kind == COOPERATIVE && b.kind == PREEMPTIVE && a.priority > b.priority
}
