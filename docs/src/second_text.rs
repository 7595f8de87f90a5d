//! The second import and export programs: comma-separated text to a table file, and back.
//! Written from the description alone, to be compared with the import and export programs.
//!
//! Build: rustc -O --edition 2021 docs/src/second_text.rs -o target/second_text
//! Usage: second_text import, with a text on standard input; second_text export, with a table file there
//!
//! What is good goes to standard output; of what is refused, one line goes to standard error.

mod second_input;
mod second_table;

use second_input::{input, FILE_LOOKED_AT};
use second_table::{
    no_clashes, read, refuse, Refusal, Row, COOPERATIVE, LIMIT, MOST_ID, MOST_PARTS, MOST_ROWS,
    MOST_TIMES, PREEMPTIVE,
};
use std::io::Write;
use std::process::ExitCode;

/// A good text has at most 14,464 bytes.
const TEXT_LOOKED_AT: u64 = 65_536;
/// Nine digits without a leading zero are above every range, whatever follows them.
const TELLING_DIGITS: usize = 9;

// ---- Reading text ----

/// The text's bytes and the offset reached.
struct Text<'a> {
    bytes: &'a [u8],
    at: usize,
}

/// A field in its range: its value, the offset of its first byte, that of its stop, and whether the stop is a comma.
struct Field {
    value: u64,
    first: usize,
    stop: usize,
    comma: bool,
}

impl Field {
    /// The value, if the stop fits: a comma where more of the row is to come, and only there.
    fn with_more(&self, more: bool) -> Result<u64, Refusal> {
        if self.comma != more {
            return refuse(17, self.stop);
        }
        Ok(self.value)
    }
}

impl<'a> Text<'a> {
    /// Goes past the wanted byte, if it is the next.
    fn take(&mut self, wanted: u8) -> bool {
        let found = self.bytes.get(self.at) == Some(&wanted);
        self.at += usize::from(found);
        found
    }

    /// One digit or more; none follows a leading zero.
    fn digits(&mut self) -> Result<&'a [u8], Refusal> {
        let first = self.at;
        if !self.take(b'0') {
            let digits = self.bytes[first..].iter();
            self.at += digits.take_while(|byte| byte.is_ascii_digit()).count();
        }
        if self.at == first {
            return refuse(17, first);
        }
        Ok(&self.bytes[first..self.at])
    }

    /// Goes past a comma, a line end or the text's end, and says whether it was a comma.
    fn stop(&mut self) -> Result<bool, Refusal> {
        if self.at == self.bytes.len() {
            return Ok(false);
        }
        if self.take(b',') {
            return Ok(true);
        }
        // After a CR it is the byte that should be an LF that cannot go on.
        if self.take(b'\r') && self.take(b'\n') {
            return Ok(false);
        }
        refuse(17, self.at)
    }

    /// The next field: its text up to its stop, code 17, then its range, code 3.
    fn field(&mut self, least: u64, most: u64) -> Result<Field, Refusal> {
        let first = self.at;
        let quoted = self.take(b'"');
        let digits = self.digits()?;
        if quoted && !self.take(b'"') {
            return refuse(17, self.at);
        }
        let stop = self.at;
        let comma = self.stop()?;
        let telling = digits.iter().take(TELLING_DIGITS);
        let value = telling.fold(0, |value, digit| value * 10 + u64::from(digit - b'0'));
        if value < least || value > most {
            return refuse(3, first);
        }
        Ok(Field {
            value,
            first,
            stop,
            comma,
        })
    }

    /// A field that another one follows.
    fn inner(&mut self, least: u64, most: u64) -> Result<u64, Refusal> {
        self.field(least, most)?.with_more(true)
    }

    /// One line; `total` counts the times of all rows so far: code 7, before the count's stop is judged.
    fn row(&mut self, total: &mut u64) -> Result<Row, Refusal> {
        let mut row = Row {
            id: self.inner(1, MOST_ID)?,
            core: self.inner(0, 3)?,
            kind: self.inner(PREEMPTIVE, COOPERATIVE)?,
            priority: self.inner(1, 255)?,
            period: self.inner(1, LIMIT)?,
            deadline: self.inner(1, LIMIT)?,
            times: Vec::new(),
        };
        let count = self.field(1, MOST_PARTS)?;
        *total += count.value;
        if *total > MOST_TIMES {
            return refuse(7, count.first);
        }
        let count = count.with_more(true)?;
        for part in 1..=count {
            let time = self.field(1, LIMIT)?;
            row.times.push(time.with_more(part < count)?);
        }
        Ok(row)
    }
}

/// The whole text: 17, 3, 7 in text order, line 65 refused whatever it holds; then 4, 5, 6.
fn read_text(bytes: &[u8]) -> Result<Vec<Row>, Refusal> {
    let mut text = Text { bytes, at: 0 };
    let mut rows = Vec::new();
    let mut total = 0;
    while text.at < bytes.len() {
        if rows.len() as u64 == MOST_ROWS {
            return refuse(3, text.at);
        }
        rows.push(text.row(&mut total)?);
    }
    no_clashes(&rows)?;
    Ok(rows)
}

// ---- Writing ----

/// A row's fields in order: the six numbers, the part count, the times.
fn fields(row: &Row) -> Vec<u64> {
    let parts = row.times.len() as u64;
    let Row {
        id,
        core,
        kind,
        priority,
        ..
    } = *row;
    let head = [id, core, kind, priority, row.period, row.deadline, parts];
    [&head[..], &row.times[..]].concat()
}

/// The table file: the row count, then every row's fields, each in groups of seven bits.
fn file(rows: &[Row]) -> Vec<u8> {
    let mut bytes = Vec::new();
    let count = [rows.len() as u64];
    for mut value in count.into_iter().chain(rows.iter().flat_map(fields)) {
        while value >= 128 {
            bytes.push((value % 128 + 128) as u8);
            value /= 128;
        }
        bytes.push(value as u8);
    }
    bytes
}

/// The text: never a quote, and every line ended.
fn text(rows: &[Row]) -> Vec<u8> {
    let mut text = String::new();
    for row in rows {
        let fields: Vec<String> = fields(row).iter().map(u64::to_string).collect();
        text += &fields.join(",");
        text += "\r\n";
    }
    text.into_bytes()
}

/// Prints what is good, or one line on what was refused; a failing write is left.
fn answer(what: &str, answer: Result<Vec<u8>, Refusal>) {
    match answer {
        Ok(bytes) => {
            let _ = std::io::stdout().write_all(&bytes);
        }
        Err(refusal) => {
            let _ = std::io::stderr().write_all(refusal.line(what).as_bytes());
        }
    }
}

fn main() -> ExitCode {
    match std::env::args().nth(1).as_deref() {
        Some("import") => {
            let rows = read_text(&input(TEXT_LOOKED_AT));
            answer("text", rows.map(|rows| file(&rows)));
        }
        Some("export") => {
            let rows = read(&input(FILE_LOOKED_AT));
            answer("file", rows.map(|rows| text(&rows)));
        }
        _ => {
            eprintln!("usage: second_text import, or second_text export");
            return ExitCode::from(2);
        }
    }
    ExitCode::SUCCESS
}
