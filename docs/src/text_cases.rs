//! The fixed list of telling texts and files.

use crate::cases;
use crate::draws::Draws;
use crate::files::Named;
use crate::good::{good, FULL};
use crate::numbers::{rows_met, FIELDS};
use crate::table::{row, Row, TIME};
use crate::text::Text;
use crate::texts::{longest, TEXT_LOOKED_AT};
use crate::ways::Way;

/// A way, and what goes in.
pub type Case = (Way, Named);

/// The fixed list: the worked texts, then those that the description's words decide, then the files of the reports; and
/// how many of its draws gave up.
pub fn fixed() -> (Vec<Case>, u64) {
    let (files, given_up) = cases::fixed();
    let mut draws = Draws::seeded(3);
    let mut texts = worked();
    texts.extend(cut_off());
    texts.extend(field_cases());
    texts.extend(row_cases());
    texts.extend(total_cases());
    texts.extend(border_cases());
    texts.extend(large_cases(&mut draws));
    texts.extend(texts_of(&files));
    let texts = texts.into_iter().map(|named| (Way::Import, named));
    let files = files.into_iter().map(|named| (Way::Export, named));
    (texts.chain(files).collect(), given_up + draws.given_up)
}

/// The texts of docs/tests/texts, each without its answer.
fn worked() -> Vec<Named> {
    let lines = include_str!("../tests/texts/cases").lines();
    let cases = lines.filter_map(|line| line.split_once('\t'));
    cases
        .map(|(text, _)| ("a worked text", unescaped(text)))
        .collect()
}

/// A text out of its printf escapes: \r, \n and \x with two digits.
fn unescaped(escaped: &str) -> Vec<u8> {
    let mut pieces = escaped.split('\\');
    let mut bytes = pieces.next().unwrap_or_default().as_bytes().to_vec();
    for piece in pieces {
        let (escape, rest) = piece.split_at(if piece.starts_with('x') { 3 } else { 1 });
        bytes.push(match escape {
            "r" => b'\r',
            "n" => b'\n',
            hex => u8::from_str_radix(&hex[1..], 16).expect("an escape of the worked texts"),
        });
        bytes.extend(rest.as_bytes());
    }
    bytes
}

/// A text of two rows, cut off at every place.
fn cut_off() -> Vec<Named> {
    let whole = b"10,0,0,20,50,50,1,1\r\n\"30\",0,\"1\",9,\"100\",100,2,\"12\",3\r\n";
    let cut = |end| ("cut off", whole[..end].to_vec());
    (0..=whole.len()).map(cut).collect()
}

/// Every field of a row: what may and may not stand there, before every kind of stop.
fn field_cases() -> Vec<Named> {
    let row = ["300", "1", "1", "200", "300", "300", "1", "300"];
    let mut list = Vec::new();
    for place in 0..TIME {
        let front: String = row[..place].iter().flat_map(|field| [field, ","]).collect();
        let rest = row[place + 1..].join(",") + "\r\n";
        let stops = [",", "\r\n", "\n"].map(|stop| [stop, &rest].concat());
        let ends = ["\rx", "\r", ""].map(String::from);
        for field in field_texts(place) {
            for stop in stops.iter().chain(&ends) {
                let text = [&front[..], &field, stop].concat();
                list.push(("a field and its stop", text.into_bytes()));
            }
        }
    }
    list
}

/// What is tried in place of a field.
fn field_texts(place: usize) -> Vec<String> {
    let (_, least, most) = FIELDS[place + 1];
    let above = most + 1;
    let mut texts = vec![least.to_string(), most.to_string(), above.to_string()];
    let fixed = ["", "0", "00", "\"\"", "184467440737095516170000000000"];
    texts.extend(fixed.map(String::from));
    texts.push(format!("\"{most}\""));
    texts.push(format!("\"{above}\""));
    texts.push(format!("\"{most}"));
    texts.push(format!("\"{most}\"1"));
    texts
}

/// A row with this id, which is its priority too, and this many times.
fn plain_row(id: u64, parts: usize) -> Row {
    row([id, 0, 0, id, 50, 50], &vec![1; parts])
}

/// 64 rows, good ones and clashing ones, and what may stand behind them.
fn row_cases() -> Vec<Named> {
    let different: Vec<Row> = (1..=64).map(|id| plain_row(id, 1)).collect();
    let equal: Vec<Row> = (1..=64).map(|_| plain_row(1, 1)).collect();
    let more = [
        "",
        "\r\n",
        "\r",
        "\n",
        ",",
        "\"",
        "0",
        "x",
        "\0",
        "65,0,0,65,50,50,1,1",
        "1,0,0,1,1,1,1,1\r\n",
    ];
    let mut list = Vec::new();
    for table in [different, equal] {
        let rows = Text::of(&table).bytes();
        let behind = |more: &str| ("64 rows and more", [&rows, more.as_bytes()].concat());
        list.extend(more.map(behind));
        list.push((
            "64 rows, the last not ended",
            rows[..rows.len() - 2].to_vec(),
        ));
        list.push((
            "64 rows, the last with half its end",
            rows[..rows.len() - 1].to_vec(),
        ));
    }
    list
}

/// 16 rows that use all 1,024 times, and one more, from its part count on.
fn total_cases() -> Vec<Named> {
    let full: Vec<Row> = (1..=16).map(|id| plain_row(id, 64)).collect();
    let full = Text::of(&full).bytes();
    let counts = [
        "1,1\r\n", "\"1\",1", "1\r\n", "1", "1\rx", "1\r", "1x", "1\n", "01", "\"1", "65,1", "0,1",
        "1,0", ",",
    ];
    let more = |count: &str| [&full[..], b"17,0,0,17,50,50,", count.as_bytes()].concat();
    let mut list = counts
        .map(|count| ("1,024 times and more", more(count)))
        .to_vec();
    let clash = [&full[..], b"16,0,0,16,50,50,1,1\r\n"].concat();
    list.push(("a total above 1,024 before a clash", clash));
    list.push(("1,024 times", full));
    list
}

/// Digits up to where no program looks any more, and what ends them.
fn border_cases() -> Vec<Named> {
    let mut list = Vec::new();
    for front in ["", "\"", "1,0,0,1,1,1,1,"] {
        for (shorter, digit) in [(0, "7"), (1, "7"), (2, "7"), (2, "0")] {
            let digits = digit.repeat(TEXT_LOOKED_AT - shorter - front.len());
            for end in ["", "x", "\"", ",", "\r\n", "\"\r\n"] {
                let text = [front, &digits, end].concat();
                list.push(("digits up to 65,536 bytes", text.into_bytes()));
            }
        }
    }
    list
}

fn large_cases(draws: &mut Draws) -> Vec<Named> {
    let mut longest = Text::of(&longest(draws));
    let plain = longest.bytes();
    longest.quote_where(|| true);
    let quoted = longest.bytes();
    let far_more = [&quoted[..], &vec![b'1'; 3_000_000]].concat();
    vec![
        (
            "64 rows and 1,024 times",
            Text::of(&good(draws, &FULL)).bytes(),
        ),
        ("the longest numbers", plain),
        (
            "14,462 bytes, the last line not ended",
            quoted[..quoted.len() - 2].to_vec(),
        ),
        ("14,464 bytes and millions more", far_more),
        ("14,464 bytes", quoted),
    ]
}

/// The rows of files as texts.
fn texts_of(files: &[Named]) -> Vec<Named> {
    let texts = files
        .iter()
        .map(|(name, bytes)| (*name, Text::of(&rows_met(bytes)).bytes()));
    texts.filter(|(_, text)| !text.is_empty()).collect()
}
