//! A table's comma-separated text, as lines of fields that can be changed.

use crate::draws::Draws;
use crate::table::{values, Row, ROWS};

/// A line's fields, and what ends it.
pub struct Line {
    pub fields: Vec<Vec<u8>>,
    pub end: Vec<u8>,
}

/// A line of these fields, ended as it should be.
pub fn line(fields: &[&str]) -> Line {
    let bytes = |field: &&str| field.as_bytes().to_vec();
    Line {
        fields: fields.iter().map(bytes).collect(),
        end: b"\r\n".to_vec(),
    }
}

pub fn quote(field: &mut Vec<u8>) {
    field.insert(0, b'"');
    field.push(b'"');
}

/// A text that can be changed; `bytes` is what it is then.
pub struct Text {
    pub lines: Vec<Line>,
}

impl Text {
    /// A table as it is written: no quotes, and every line ended.
    pub fn of(table: &[Row]) -> Text {
        let mut lines = Vec::new();
        for (kind, value) in values(table) {
            if kind == ROWS + 1 {
                lines.push(line(&[]));
            }
            if let Some(Line { fields, .. }) = lines.last_mut() {
                fields.push(value.to_string().into_bytes());
            }
        }
        Text { lines }
    }

    /// A table in one of the ways it may be read: no field, some or all in quotes, and perhaps the last line end missing.
    pub fn dressed(draws: &mut Draws, table: &[Row]) -> Text {
        let mut text = Text::of(table);
        let chances = draws.pick(&[0, 0, 1, 2, 9]);
        text.quote_where(|| chances > 0 && draws.one_in(chances));
        if draws.one_in(3) {
            if let Some(last) = text.lines.last_mut() {
                last.end.clear();
            }
        }
        text
    }

    pub fn quote_where(&mut self, mut wanted: impl FnMut() -> bool) {
        let fields = self.lines.iter_mut().flat_map(|line| &mut line.fields);
        fields.filter(|_| wanted()).for_each(quote);
    }

    pub fn bytes(&self) -> Vec<u8> {
        let line = |line: &Line| [line.fields.join(&b','), line.end.clone()].concat();
        self.lines.iter().flat_map(line).collect()
    }
}
