//! The two ways between a table's text and its file, and what the programs for them answer.

use crate::compare::Printed;

#[derive(Clone, Copy, PartialEq, Eq, PartialOrd, Ord)]
pub enum Way {
    Import,
    Export,
}

impl Way {
    pub fn word(self) -> &'static str {
        match self {
            Way::Import => "import",
            Way::Export => "export",
        }
    }

    /// What goes in.
    pub fn given(self) -> &'static str {
        match self {
            Way::Import => "text",
            Way::Export => "file",
        }
    }

    pub fn back(self) -> Way {
        match self {
            Way::Import => Way::Export,
            Way::Export => Way::Import,
        }
    }

    /// The codes there are.
    pub fn codes(self) -> &'static [u64] {
        match self {
            Way::Import => &[0, 3, 4, 5, 6, 7, 17],
            Way::Export => &[0, 1, 2, 3, 4, 5, 6, 7, 8],
        }
    }

    /// The code and number that a program answers; none where what it prints is no answer.
    pub fn verdict(self, [output, error]: &Printed) -> Option<(u64, usize)> {
        if error.is_empty() {
            // Every file has a byte, but the text of no rows has none.
            let good = self == Way::Export || !output.is_empty();
            return good.then_some((0, 0));
        }
        let line = String::from_utf8_lossy(error);
        let words: Vec<&str> = line.split(' ').collect();
        let [given, "code", code, "number", number] = words[..] else {
            return None;
        };
        let (code, number) = (code.parse().ok()?, number.strip_suffix('\n')?.parse().ok()?);
        let refused = output.is_empty() && given == self.given() && self.codes().contains(&code);
        refused.then_some((code, number))
    }
}
