//! The texts of a run.

use crate::damage::{crowded, make_clash, victim};
use crate::draws::Draws;
use crate::files::Named;
use crate::good::{extreme, good, largest, FULL, LARGE, LONG, MIDDLE, MOST_TIMES, SMALL, TINY};
use crate::table::{Row, LIMIT, TIME};
use crate::text::Text;
use crate::text_damage::{any_of, out_of_range, FAULTS};

/// The import programs look at this many bytes.
pub const TEXT_LOOKED_AT: usize = 65_536;

/// A text of one of the kinds, the damaged ones among them.
pub fn drawn_text(draws: &mut Draws) -> Named {
    match draws.below(60) {
        0..=9 => good_text(draws),
        10..=35 => {
            let (name, put) = draws.pick(&FAULTS);
            (name, with_fault(draws, put))
        }
        36..=40 => ("out of range", with_fault(draws, out_of_range)),
        41..=43 => ("two faults", two_faults(draws)),
        44..=45 => ("cut off", cut(draws)),
        46 => ("other separators", other_separators(draws)),
        47..=49 => ("changed bytes", changed(draws)),
        50..=53 => ("clashing rows", clashing(draws)),
        54..=55 => ("total near 1,024", near_most_times(draws)),
        56..=57 => ("line 65", line_65(draws)),
        58 => ("65,536 bytes and more", beyond(draws)),
        _ => ("any bytes", any_of(draws, 200)),
    }
}

fn good_text(draws: &mut Draws) -> Named {
    let (name, table) = match draws.below(14) {
        0..=2 => ("tiny table", good(draws, &TINY)),
        3..=5 => ("small table", good(draws, &SMALL)),
        6 => ("middle table", good(draws, &MIDDLE)),
        7 => ("long periods", good(draws, &LONG)),
        8 => ("large table", good(draws, &LARGE)),
        9 => ("64 rows and 1,024 times", good(draws, &FULL)),
        10..=11 => ("ends of ranges", extreme(draws)),
        12 => ("5,121 bytes as a file", largest(draws)),
        _ => ("the longest numbers", longest(draws)),
    };
    (name, Text::dressed(draws, &table).bytes())
}

/// 64 rows and 1,024 times, every number with as many digits as its range lets it: 14,464 bytes, all in quotes.
pub fn longest(draws: &mut Draws) -> Vec<Row> {
    let long = |draws: &mut Draws| draws.between(10_000_000, LIMIT);
    let mut table = largest(draws);
    for row in &mut table {
        row.period = long(draws);
        row.deadline = long(draws);
        row.times = (0..16).map(|_| long(draws)).collect();
    }
    table
}

/// A good text, to be damaged.
fn victim_text(draws: &mut Draws) -> Text {
    let table = victim(draws);
    Text::dressed(draws, &table)
}

fn with_fault(draws: &mut Draws, put: fn(&mut Draws, &mut Text)) -> Vec<u8> {
    let mut text = victim_text(draws);
    put(draws, &mut text);
    text.bytes()
}

fn two_faults(draws: &mut Draws) -> Vec<u8> {
    let mut table = victim(draws);
    if draws.one_in(3) {
        make_clash(draws, &mut table);
    }
    let mut text = Text::dressed(draws, &table);
    for _ in 0..2 {
        let (_, put) = draws.pick(&FAULTS);
        put(draws, &mut text);
    }
    text.bytes()
}

fn cut(draws: &mut Draws) -> Vec<u8> {
    let mut bytes = victim_text(draws).bytes();
    bytes.truncate(draws.below(bytes.len()));
    bytes
}

fn other_separators(draws: &mut Draws) -> Vec<u8> {
    let other: [&[u8]; 5] = [b";", b"\t", b" ", b", ", b" ,"];
    let other = draws.pick(&other);
    let bytes = victim_text(draws).bytes();
    let fields: Vec<&[u8]> = bytes.split(|byte| *byte == b',').collect();
    fields.join(other)
}

/// A good text with a few bytes changed, put in, taken out or swapped.
fn changed(draws: &mut Draws) -> Vec<u8> {
    let mut bytes = victim_text(draws).bytes();
    for _ in 0..draws.pick(&[1, 1, 1, 2, 3]) {
        let (place, other) = (draws.below(bytes.len()), draws.below(bytes.len()));
        let any = draws.next() as u8;
        let byte = draws.pick(&[b'0', b'1', b',', b'"', b'\r', b'\n', any]);
        match draws.below(5) {
            0 => bytes.insert(place, byte),
            1 if bytes.len() > 1 => drop(bytes.remove(place)),
            2 => bytes[place] = byte,
            3 => bytes.swap(place, other),
            _ => bytes.swap(place, place.max(1) - 1),
        }
    }
    bytes
}

fn clashing(draws: &mut Draws) -> Vec<u8> {
    let mut table = victim(draws);
    make_clash(draws, &mut table);
    Text::dressed(draws, &table).bytes()
}

/// The first row whose part count takes the total above 1,024.
fn first_above(table: &[Row]) -> Option<usize> {
    let mut total = 0;
    table.iter().position(|row| {
        total += row.times.len() as u64;
        total > MOST_TIMES
    })
}

/// Part counts that reach 1,024 or go above, and perhaps another fault at the count or right after it.
fn near_most_times(draws: &mut Draws) -> Vec<u8> {
    let table = crowded(draws);
    let mut text = Text::dressed(draws, &table);
    let place = first_above(&table).unwrap_or(table.len() - 1);
    let line = &mut text.lines[place];
    match draws.below(6) {
        0 => line.fields.truncate(TIME - 1),
        1 => {
            line.fields.truncate(TIME - 1);
            line.end = draws.pick(&[&b""[..], b"\rx", b"\n", b"\r", b","]).to_vec();
        }
        2 => line.fields[TIME - 2].push(draws.pick(b"0x\" ")),
        3 => line.fields[TIME - 2] = draws.pick(&[&b"0"[..], b"65", b"064", b""]).to_vec(),
        4 => line.fields[TIME - 1] = draws.pick(&[&b"0"[..], b"x", b""]).to_vec(),
        _ => {}
    }
    text.bytes()
}

/// 64 rows, clashing every third time, and anything after them.
fn line_65(draws: &mut Draws) -> Vec<u8> {
    let mut table = good(draws, &FULL);
    if draws.one_in(3) {
        make_clash(draws, &mut table);
    }
    let mut more = match draws.below(3) {
        0 => victim_text(draws).bytes(),
        1 => vec![draws.next() as u8],
        _ => any_of(draws, 20),
    };
    let mut bytes = Text::dressed(draws, &table).bytes();
    bytes.append(&mut more);
    bytes
}

/// A good text parted by so many equal bytes that it reaches the end of what is looked at.
fn beyond(draws: &mut Draws) -> Vec<u8> {
    let bytes = victim_text(draws).bytes();
    let (front, back) = bytes.split_at(draws.below(bytes.len()));
    let filler = draws.pick(b"7770x,\"\r\n");
    let reached = TEXT_LOOKED_AT - 2 + draws.pick(&[0, 1, 2, 3, 5_000, 200_000]);
    let filling = vec![filler; reached - front.len()];
    [front, &filling, back].concat()
}
