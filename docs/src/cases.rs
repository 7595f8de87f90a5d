//! The fixed list of telling cases.

use crate::damage::last_count;
use crate::draws::Draws;
use crate::files::Named;
use crate::good::{good, largest, FULL};
use crate::numbers::{joined, numbers, FIELDS};
use crate::table::{file, row, shortest, Row, LIMIT};

/// Bytes out of hex, two digits each with spaces between them.
pub fn hex(text: &str) -> Vec<u8> {
    text.split_whitespace()
        .filter_map(|byte| u8::from_str_radix(byte, 16).ok())
        .collect()
}

/// The fixed list: the samples of the description, then the cases its words decide; and how many of its draws gave up.
pub fn fixed() -> (Vec<Named>, u64) {
    let (mut one, mut two) = (Draws::seeded(1), Draws::seeded(2));
    let mut list = samples(&mut one);
    list.extend(number_cases());
    list.extend(field_cases());
    list.extend(large_cases(&mut two));
    list.extend(clash_cases());
    list.extend(clash_order_cases());
    list.extend(verdict_cases());
    list.extend(delay_cases());
    list.extend(limit_cases());
    (list, one.given_up + two.given_up)
}

fn samples(draws: &mut Draws) -> Vec<Named> {
    let set_a = "03 01 00 00 03 05 05 01 01 02 00 01 02 0A 0A 02 01 02 03 00 01 01 14";
    let set_a_with = |deadline| hex(&format!("{set_a} {deadline} 02 02 03"));
    let pair = [
        row([1, 0, 0, 2, 70, 70], &[26]),
        row([2, 0, 0, 1, 100, 118], &[62]),
    ];
    let tight = [row([1, 0, 1, 2, 1, 9], &[1]), row([2, 0, 1, 1, 5, 9], &[1])];
    vec![
        ("Set A", set_a_with("14")),
        ("Set A, task 3's deadline at 10", set_a_with("0A")),
        ("Set A, task 3's deadline at 9", set_a_with("09")),
        ("the 70/100 pair", file(&pair)),
        (
            "T = C = D = 16,777,215",
            file(&[row([1, 0, 0, 1, LIMIT, LIMIT], &[LIMIT])]),
        ),
        (
            "T 16,777,214",
            file(&[row([1, 0, 0, 1, LIMIT - 1, LIMIT], &[LIMIT])]),
        ),
        ("T 1 C 1 above T 5 C 1", file(&tight)),
        (
            "80 80 80 08 as a period",
            hex("01 01 00 00 01 80 80 80 08 01 01 01"),
        ),
        ("FF FF FF 07 as a row count", hex("FF FF FF 07")),
        ("80 00", hex("80 00")),
        ("80", hex("80")),
        ("empty file", Vec::new()),
        ("00", hex("00")),
        ("00 00", hex("00 00")),
        ("64 rows with 1,024 times", file(&good(draws, &FULL))),
        ("the largest file", file(&largest(draws))),
    ]
}

fn number_cases() -> Vec<Named> {
    vec![
        ("80 80 80 80 at the end", hex("80 80 80 80")),
        ("80 80 80", hex("80 80 80")),
        ("80 80 80 00", hex("80 80 80 00")),
        ("row count 65", hex("41")),
        ("80 80 80 80 as an id", hex("01 80 80 80 80")),
        ("80 80 80 as an id", hex("01 80 80 80")),
        ("80 00 as an id: 2 before 3", hex("01 80 00")),
        ("no part count", hex("01 01 00 00 01 01 01")),
        ("part count 0", hex("01 01 00 00 01 01 01 00")),
        ("part count 65", hex("01 01 00 00 01 01 01 41")),
    ]
}

/// Every field of a one-row file, which stand in the order of `FIELDS`, at and outside its ends.
fn field_cases() -> Vec<Named> {
    let mut list = Vec::new();
    for (place, (_, least, most)) in FIELDS.into_iter().enumerate() {
        let mut add = |name, bytes: &[u8], whole: bool| {
            let mut numbers = numbers(&[row([300, 1, 1, 200, 300, 300], &[300])]);
            numbers[place].bytes = bytes.to_vec();
            numbers.truncate(if whole { 9 } else { place + 1 });
            list.push((name, joined(&numbers)));
        };
        add("a field at its least", &shortest(least), true);
        add("a field at its most", &shortest(most), true);
        add("a field above its most", &shortest(most + 1), true);
        add("a field at 0", &[0], true);
        add("a field of four bytes", &[0xFF, 0xFF, 0xFF, 0x7F], true);
        add("a field of five bytes", &[0x80, 0x80, 0x80, 0x80, 1], true);
        add("a field ending in zero", &[0x81, 0], true);
        add("a field missing", &[], false);
        add("a field cut off", &[0x81], false);
    }
    list
}

fn large_cases(draws: &mut Draws) -> Vec<Named> {
    let most = file(&largest(draws));
    let one_more = [&most[..], &[0]].concat();
    let far_more = [&most[..], &vec![0xFF; 3_000_000]].concat();
    let mut at_5120 = |bytes: &str| last_count(draws, &hex(bytes));
    vec![
        ("5,121 bytes and one more", one_more),
        ("5,121 bytes and millions more", far_more),
        ("count at 5,120: 7", at_5120("01")),
        ("count at 5,120: 3 before 7", at_5120("41")),
        ("count at 5,120: 3, zero", at_5120("00")),
        ("count at 5,120: 3, four bytes", at_5120("80 80 80 01")),
        ("count at 5,120: 2 at the end", at_5120("80 80 80 80")),
        ("count at 5,120: 2 with more", at_5120("80 80 80 80 80")),
        ("count at 5,120: 2, zero last", at_5120("81 80 80 00")),
        ("count at 5,120: 1", at_5120("80 80 80")),
        ("count at 5,120: missing", at_5120("")),
    ]
}

/// The rows of the clash cases, by id.
fn upper(id: u64) -> Row {
    row([id, 0, 1, 9, 50, 50], &[1])
}

fn lower(id: u64) -> Row {
    row([id, 0, 0, 5, 50, 50], &[1])
}

fn below(id: u64) -> Row {
    row([id, 0, 1, 2, 50, 50], &[1])
}

fn other(id: u64) -> Row {
    row([id, 1, 0, 5, 50, 50], &[1])
}

fn far(id: u64) -> Row {
    row([id, 2, 1, 9, 50, 50], &[1])
}

fn clash_cases() -> Vec<Named> {
    let ids = [other(7), upper(1), lower(7), below(7)];
    let preemptive_later = [other(4), upper(1), lower(2)];
    let cooperative_later = [other(4), lower(2), below(3), upper(1)];
    vec![
        ("4: three of one id", file(&ids)),
        ("6: the later is preemptive", file(&preemptive_later)),
        ("6: the later is cooperative", file(&cooperative_later)),
        ("other cores", file(&[lower(1), other(2), far(3)])),
        ("other cores, turned", file(&[far(1), other(2), lower(3)])),
    ]
}

fn clash_order_cases() -> Vec<Named> {
    let five_later = [upper(1), lower(2), other(3), lower(4)];
    let four_after_five = [lower(1), lower(2), other(3), below(3)];
    let four_after_six = [upper(1), lower(2), below(4), other(2)];
    let eight = [file(&[upper(1), upper(1)]), vec![7]].concat();
    vec![
        ("5 later beats 6 earlier", file(&five_later)),
        ("4 later beats 5 earlier", file(&four_after_five)),
        ("4 later beats 6 earlier", file(&four_after_six)),
        ("8 before 4, 5 and 6", eight),
    ]
}

fn verdict_cases() -> Vec<Named> {
    let late = || row([1, 0, 0, 9, 10, 1], &[5]);
    let late_lower = || row([5, 0, 1, 3, 40, 4], &[3, 2]);
    let endless = |id, priority| row([id, 0, 0, priority, 10, 90], &[6]);
    let fine = || row([4, 0, 1, 1, 900, 900], &[3, 2, 1]);
    let elsewhere = || row([6, 2, 1, 200, 3, 3], &[3]);
    let two_endless = [endless(3, 2), late(), endless(2, 5)];
    let two_late = [late_lower(), fine(), late()];
    let all_bounds = [fine(), late_lower(), elsewhere()];
    let two_cores = [elsewhere(), late(), endless(2, 5)];
    vec![
        ("12 above 11 is 11", file(&[late(), endless(2, 5)])),
        ("11 names the higher", file(&two_endless)),
        ("12 names the higher", file(&two_late)),
        ("12 with all bounds", file(&all_bounds)),
        ("11 on one core, 0 on another", file(&two_cores)),
        ("one good row", file(&[fine()])),
    ]
}

/// Two rows on core 0, of one type or with the upper one preemptive.
fn two(kinds: [u64; 2], periods: [u64; 2], upper: &[u64], lower: &[u64]) -> Vec<u8> {
    file(&[
        row([2, 0, kinds[1], 4, periods[1], periods[1]], lower),
        row([1, 0, kinds[0], 9, periods[0], periods[0]], upper),
    ])
}

fn delay_cases() -> Vec<Named> {
    let at_start = two([1, 1], [4, 9], &[1], &[1, 1, 2]);
    let cut_in = two([0, 1], [5, 30], &[2], &[4, 1, 6]);
    let longest = two([1, 1], [90, 90], &[3], &[5, 8, 4]);
    let one_tick = two([1, 1], [7, 9], &[2, 1], &[1, 1]);
    let preemptive = two([0, 0], [9, 14], &[5], &[3, 3]);
    let cooperative = two([1, 1], [8, 12], &[3], &[4, 3]);
    vec![
        ("a release at the start tick", at_start),
        ("a part cut in on", cut_in),
        ("the longest part less one tick blocks", longest),
        ("a part of one tick blocks nobody", one_tick),
        ("the last job decides, preemptive", preemptive),
        ("the last job decides, cooperative", cooperative),
    ]
}

fn limit_cases() -> Vec<Named> {
    let half = 8_388_608;
    let window = |lower| two([1, 1], [half, LIMIT], &[half - 100], &[lower]);
    let sum = |period, times: &[u64]| file(&[row([9, 3, 1, 7, period, LIMIT], times)]);
    let most_times = [LIMIT; 64];
    let no_tick_free = two([1, 1], [1, 5], &[1], &[2]);
    let up_to_limit = two([0, 0], [LIMIT, LIMIT], &[LIMIT - 1], &[1]);
    vec![
        ("windows up to 16,777,215", up_to_limit),
        ("B gives a window of 16,777,215", window(200)),
        ("B gives a window of 16,777,216", window(201)),
        ("no tick free, and one tick of B", no_tick_free),
        ("up(L/T) times C is 2^32", sum(1, &[65_536])),
        ("the largest C", sum(LIMIT, &most_times)),
        ("the largest C, T 1", sum(1, &most_times)),
        ("T 1 C 1", sum(1, &[1])),
    ]
}
