//! What a run of texts and files covered.

use crate::compare::Gathered;
use crate::numbers::FIELDS;
use crate::table::TIME;
use crate::texts::TEXT_LOOKED_AT;
use crate::ways::Way;
use crate::Difference;
use std::collections::BTreeMap;

/// How often each thing was met.
type Counts<K> = BTreeMap<K, u64>;

#[derive(Default)]
pub struct Coverage {
    pub difference: Option<Difference>,
    codes: Counts<(Way, u64)>,
    kinds: Counts<(Way, &'static str, u64)>,
    /// Texts with code 3 by field, and with code 17 by the byte that cannot go on and the one before it.
    fields: Counts<&'static str>,
    bytes: Counts<(&'static str, &'static str)>,
    /// Good texts by their quotes and their end.
    looks: Counts<(&'static str, &'static str)>,
    largest: usize,
    rows: usize,
    times: usize,
    pub unanswered: u64,
    given_up: u64,
}

impl Gathered for Coverage {
    fn join(&mut self, other: Self) {
        add(&mut self.codes, other.codes);
        add(&mut self.kinds, other.kinds);
        add(&mut self.fields, other.fields);
        add(&mut self.bytes, other.bytes);
        add(&mut self.looks, other.looks);
        self.largest = self.largest.max(other.largest);
        self.rows = self.rows.max(other.rows);
        self.times = self.times.max(other.times);
        self.unanswered += other.unanswered;
        self.given_up += other.given_up;
        let found = [self.difference.take(), other.difference];
        self.difference = found.into_iter().flatten().min_by_key(|found| found.index);
    }
}

fn add<K: Ord>(sum: &mut Counts<K>, more: Counts<K>) {
    for (key, count) in more {
        *sum.entry(key).or_default() += count;
    }
}

fn add_one<K: Ord>(sum: &mut Counts<K>, key: K) {
    *sum.entry(key).or_default() += 1;
}

impl Coverage {
    /// The code and number that a case of this kind was answered with.
    pub fn add(
        &mut self,
        kind: &'static str,
        way: Way,
        given: &[u8],
        verdict: Option<(u64, usize)>,
    ) {
        let Some((code, number)) = verdict else {
            self.unanswered += 1;
            return;
        };
        let given = &given[..given.len().min(TEXT_LOOKED_AT)];
        add_one(&mut self.codes, (way, code));
        add_one(&mut self.kinds, (way, kind, code));
        match (way, code) {
            (Way::Import, 0) => self.add_good(given),
            (Way::Import, 3) => add_one(&mut self.fields, field_at(given, number)),
            (Way::Import, 17) => {
                let before = number.checked_sub(1);
                let before = before.map_or("start", |place| class(given, place));
                add_one(&mut self.bytes, (before, class(given, number)));
            }
            _ => {}
        }
    }

    pub fn add_given_up(&mut self, count: u64) {
        self.given_up += count;
    }

    fn add_good(&mut self, text: &[u8]) {
        let rows = text.split(|byte| *byte == b'\n');
        let rows: Vec<&[u8]> = rows.filter(|row| !row.is_empty()).collect();
        let fields: usize = rows.iter().map(|row| count(row, b',') + 1).sum();
        let quotes = match count(text, b'"') / 2 {
            0 => "no quotes",
            all if all == fields => "all quoted",
            _ => "some quoted",
        };
        let end = match text {
            [] => "empty",
            [.., b'\n'] => "last line ended",
            _ => "last line not ended",
        };
        add_one(&mut self.looks, (quotes, end));
        self.largest = self.largest.max(text.len());
        self.rows = self.rows.max(rows.len());
        self.times = self.times.max(fields - rows.len() * (TIME - 1));
    }

    /// The codes that no case reached.
    pub fn never_reached(&self) -> Vec<String> {
        let mut missing = Vec::new();
        for way in [Way::Import, Way::Export] {
            let codes = way.codes().iter();
            let never = codes.filter(|code| !self.codes.contains_key(&(way, **code)));
            missing.extend(never.map(|code| format!("{} code {code}", way.word())));
        }
        missing
    }

    pub fn print(&self) {
        for way in [Way::Import, Way::Export] {
            println!("{}s by code:", way.given());
            for code in way.codes() {
                let count = self.codes.get(&(way, *code)).unwrap_or(&0);
                println!("  code {code}: {count}");
            }
            println!("{}s by kind, and the codes they reached:", way.given());
            self.print_kinds(way);
        }
        println!("texts with code 3 by field: {}", listed(&self.fields));
        println!("texts with code 17 by the byte before and the byte that cannot go on:");
        print_pairs(&self.bytes);
        println!("good texts by their look:");
        print_pairs(&self.looks);
        println!("largest good text: {} bytes", self.largest);
        println!("most rows: {}; most times: {}", self.rows, self.times);
        println!("cases without an answer: {}", self.unanswered);
        println!("draws that gave up, and took one row: {}", self.given_up);
    }

    fn print_kinds(&self, way: Way) {
        let mut kinds: BTreeMap<&str, Vec<String>> = BTreeMap::new();
        for ((of, kind, code), count) in &self.kinds {
            if *of == way {
                let codes = kinds.entry(kind).or_default();
                codes.push(format!("{code}: {count}"));
            }
        }
        for (kind, codes) in kinds {
            println!("  {kind}: {}", codes.join(", "));
        }
    }
}

fn count(bytes: &[u8], wanted: u8) -> usize {
    bytes.iter().filter(|byte| **byte == wanted).count()
}

/// The name of the field that begins at this offset of a text.
fn field_at(text: &[u8], offset: usize) -> &'static str {
    let before = text.get(..offset).unwrap_or(text);
    if count(before, b'\n') == 64 {
        return "line 65";
    }
    let in_line = before.rsplit(|byte| *byte == b'\n').next();
    let place = in_line.map_or(0, |line| count(line, b','));
    FIELDS[(place + 1).min(TIME)].0
}

/// What kind of byte stands at this offset of a text.
fn class(text: &[u8], offset: usize) -> &'static str {
    match text.get(offset) {
        None => "end",
        Some(b'0') => "zero",
        Some(b'1'..=b'9') => "digit",
        Some(b',') => "comma",
        Some(b'"') => "quote",
        Some(b'\r') => "CR",
        Some(b'\n') => "LF",
        Some(_) => "other",
    }
}

fn listed(counts: &Counts<&str>) -> String {
    let counts = counts.iter().map(|(name, count)| format!("{name} {count}"));
    counts.collect::<Vec<_>>().join(", ")
}

/// One line for each first name, with the counts by the second.
fn print_pairs(counts: &Counts<(&str, &str)>) {
    let mut rows: BTreeMap<&str, Counts<&str>> = BTreeMap::new();
    for ((first, second), count) in counts {
        rows.entry(first).or_default().insert(second, *count);
    }
    for (first, row) in rows {
        println!("  {first}: {}", listed(&row));
    }
}
