//! Faults of text, put into the lines of a good one.

use crate::draws::Draws;
use crate::numbers::FIELDS;
use crate::table::TIME;
use crate::text::{line, quote, Line, Text};

/// What a fault is called, and what puts it into a text.
type Fault = (&'static str, fn(&mut Draws, &mut Text));

pub const FAULTS: [Fault; 11] = [
    ("empty field", empty_field),
    ("leading zero", leading_zero),
    ("odd byte in a field", odd_byte),
    ("broken quotes", break_quotes),
    ("any bytes as a field", any_field),
    ("odd line end", odd_end),
    ("empty line", empty_line),
    ("wrong number of fields", miscount),
    ("comma too many", extra_comma),
    ("header line", header),
    ("byte order mark", byte_order_mark),
];

/// Bytes that stand in no text: signs, letters, neighbours of those that do, those with the high bit set, zero.
const ODD: &[u8] = b"ax -+.;_'\t/:!#(\x0B\x0C\x0E\x00\x7F\x80\x8A\x8D\xA2\xAC\xB0\xB9\xC2\xFF";
/// Ends of a line that are no line end, or not only one.
const ODD_ENDS: [&[u8]; 16] = [
    b"\r", b"\n", b"\r\r\n", b"\n\r", b"\n\n", b"\rx", b"\r7", b"\r0", b"\r,", b"\r\"", b"\r \n",
    b" \r\n", b"\r\0\n", b"\r\n\n", b"\r\n\r", b"\x8D\n",
];
const BYTE_ORDER_MARKS: [&[u8]; 3] = [b"\xEF\xBB\xBF", b"\xFE\xFF", b"\xFF\xFE"];
/// Numbers of bits after which a value that is not watched begins again.
const WRAPS: [u32; 7] = [8, 16, 24, 31, 32, 63, 64];

// ---- Places ----

/// The place of a field in a line, each kind of field about as likely.
fn some_place(draws: &mut Draws, line: &Line) -> usize {
    let kind = draws.below(TIME);
    let times = line.fields.len().saturating_sub(TIME - 1);
    let place = if kind == TIME - 1 {
        kind + draws.below(times)
    } else {
        kind
    };
    place.min(line.fields.len() - 1)
}

fn some_line<'a>(draws: &mut Draws, text: &'a mut Text) -> &'a mut Line {
    let place = draws.below(text.lines.len());
    &mut text.lines[place]
}

fn some_field<'a>(draws: &mut Draws, text: &'a mut Text) -> &'a mut Vec<u8> {
    let line = some_line(draws, text);
    let place = some_place(draws, line);
    &mut line.fields[place]
}

/// Ends the text after this line, which may have lost its line end.
fn stop_after(draws: &mut Draws, text: &mut Text, place: usize) {
    text.lines.truncate(place + 1);
    if draws.one_in(2) {
        text.lines[place].end.clear();
    }
}

// ---- Fields ----

fn empty_field(draws: &mut Draws, text: &mut Text) {
    if draws.one_in(2) {
        return some_field(draws, text).clear();
    }
    // The last of a line, before each kind of byte and at the text's end.
    let place = draws.below(text.lines.len());
    let Line { fields, end } = &mut text.lines[place];
    fields.pop();
    fields.push(Vec::new());
    if draws.one_in(2) {
        *end = draws.pick(&ODD_ENDS).to_vec();
    } else {
        stop_after(draws, text, place);
    }
}

fn leading_zero(draws: &mut Draws, text: &mut Text) {
    let field = some_field(draws, text);
    let first = usize::from(field.first() == Some(&b'"'));
    for _ in 0..draws.any_size(1, 40) {
        field.insert(first, b'0');
    }
}

/// One or more odd bytes before, inside or after what stands there.
fn odd_byte(draws: &mut Draws, text: &mut Text) {
    let field = some_field(draws, text);
    let place = draws.below(field.len() + 1);
    for _ in 0..draws.pick(&[1, 1, 1, 2]) {
        field.insert(place, draws.pick(ODD));
    }
}

fn break_quotes(draws: &mut Draws, text: &mut Text) {
    let field = some_field(draws, text);
    field.retain(|byte| *byte != b'"');
    let digits: &[u8] = &field.clone();
    let (front, back) = digits.split_at(draws.below(digits.len() + 1));
    let broken: [&[&[u8]]; 16] = [
        &[front, b"\"", back],
        &[b"\"", front, b"\"", back, b"\""],
        &[b"\"", digits],
        &[b"\"\""],
        &[b"\""],
        &[b"\"", digits, b"\"", digits],
        &[b"\"", digits, b"\"x"],
        &[b"\"", digits, b"\" "],
        &[b" \"", digits, b"\""],
        &[b"\"", digits, b"\"\""],
        &[b"\"\"", digits, b"\"\""],
        &[b"\"", front, b"\"\"", back, b"\""],
        &[b"\"", digits, b",1\""],
        &[b"\"", digits, b"\r\n\""],
        &[b"\" ", digits, b" \""],
        &[b"\"0", digits, b"\""],
    ];
    *field = draws.pick(&broken).concat();
}

/// A few bytes of those that texts are made of.
fn any_field(draws: &mut Draws, text: &mut Text) {
    *some_field(draws, text) = any_of(draws, 6);
}

/// Up to `most` bytes of those that texts are made of, and an odd one.
pub fn any_of(draws: &mut Draws, most: u64) -> Vec<u8> {
    let length = draws.any_size(0, most);
    (0..length)
        .map(|_| draws.pick(b"0011279,,\"\"\r\nx"))
        .collect()
}

/// A value outside its range, and perhaps a bad byte or a stop that does not fit right after it.
pub fn out_of_range(draws: &mut Draws, text: &mut Text) {
    let place = draws.below(text.lines.len());
    let line = &mut text.lines[place];
    let field = some_place(draws, line);
    line.fields[field] = outside(draws, FIELDS[(field + 1).min(TIME)]);
    if draws.one_in(4) {
        quote(&mut line.fields[field]);
    }
    match draws.below(6) {
        0 => line.fields[field].push(draws.pick(ODD)),
        1 => line.fields.truncate(field + 1),
        2 => line.fields.push(b"1".to_vec()),
        3 => {
            line.fields.truncate(field + 1);
            line.end = draws.pick(&ODD_ENDS).to_vec();
        }
        4 => {
            line.fields.truncate(field + 1);
            stop_after(draws, text, place);
        }
        _ => {}
    }
}

/// The digits of a value outside a field's range.
fn outside(draws: &mut Draws, (_, least, most): (&str, u64, u64)) -> Vec<u8> {
    let value = match draws.below(6) {
        0..=1 if least > 0 => 0,
        2 => wrapping(draws, least, most),
        3 => u128::from(draws.any_size(most + 1, u64::MAX / 2)),
        4 => return many_digits(draws),
        _ => u128::from(most) + 1,
    };
    value.to_string().into_bytes()
}

/// A value above the range whose low bits are in it.
fn wrapping(draws: &mut Draws, least: u64, most: u64) -> u128 {
    let inside = draws.between(least, most);
    let wraps = WRAPS.map(|bits| 1 << bits);
    let first = wraps.iter().position(|wrap| *wrap > u128::from(most));
    u128::from(inside) + draws.pick(&wraps[first.unwrap_or(0)..])
}

/// Up to thousands of digits, too many for every range.
fn many_digits(draws: &mut Draws) -> Vec<u8> {
    let length = draws.any_size(9, 5_000);
    let mut digits: Vec<u8> = (0..length).map(|_| draws.pick(b"0123456789")).collect();
    digits[0] = draws.pick(b"123456789");
    digits
}

// ---- Lines ----

fn odd_end(draws: &mut Draws, text: &mut Text) {
    let odd = draws.pick(&ODD_ENDS).to_vec();
    let place = draws.below(text.lines.len());
    text.lines[place].end.clone_from(&odd);
    match draws.below(4) {
        0 => text.lines.truncate(place + 1),
        1 => text
            .lines
            .iter_mut()
            .for_each(|line| line.end.clone_from(&odd)),
        _ => {}
    }
}

/// An empty line, or one with only a part of its line end.
fn empty_line(draws: &mut Draws, text: &mut Text) {
    let place = draws.pick(&[0, text.lines.len(), text.lines.len() / 2]);
    let mut empty = line(&[""]);
    if draws.one_in(3) {
        empty.end = draws.pick(&ODD_ENDS).to_vec();
    }
    text.lines.insert(place, empty);
}

/// Too few or too many fields or times, or another part count than there are times.
fn miscount(draws: &mut Draws, text: &mut Text) {
    let place = draws.below(text.lines.len());
    let line = &mut text.lines[place];
    let field = some_place(draws, line);
    match draws.below(5) {
        0 => line.fields.truncate(field.max(1)),
        1 if line.fields.len() > 1 => drop(line.fields.remove(field)),
        2 => line.fields.insert(field, b"1".to_vec()),
        3 => line
            .fields
            .extend(vec![b"1".to_vec(); draws.between(1, 70) as usize]),
        _ if line.fields.len() >= TIME => {
            let parts = draws.between(1, 64);
            line.fields[TIME - 2] = parts.to_string().into_bytes();
        }
        _ => {}
    }
    if draws.one_in(3) {
        stop_after(draws, text, place);
    }
}

/// A comma at the end of a line or at its beginning.
fn extra_comma(draws: &mut Draws, text: &mut Text) {
    let line = some_line(draws, text);
    let place = draws.pick(&[0, line.fields.len(), line.fields.len()]);
    line.fields.insert(place, Vec::new());
}

fn header(draws: &mut Draws, text: &mut Text) {
    let names = [
        "id", "core", "type", "priority", "period", "deadline", "parts", "times",
    ];
    let mut header = line(&names);
    match draws.below(3) {
        0 => header.fields.iter_mut().for_each(quote),
        1 => header.fields[0].insert(0, b'#'),
        _ => {}
    }
    text.lines.insert(0, header);
}

fn byte_order_mark(draws: &mut Draws, text: &mut Text) {
    let mark = draws.pick(&BYTE_ORDER_MARKS);
    let field = &mut text.lines[0].fields[0];
    let place = usize::from(draws.one_in(4)).min(field.len());
    field.splice(place..place, mark.iter().copied());
}
