//! Lines of about 256 bytes, and far longer ones.

use super::{contexts, Case};
use crate::answer_lines::Context;

/// About 256, about the powers of two that a length may be cut to, and more.
const LENGTHS: [usize; 17] = [
    253, 254, 255, 256, 257, 258, 259, 260, 511, 512, 513, 1_000, 4_097, 65_535, 65_536, 65_537,
    100_000,
];

/// A line that can be made longer: what stands before and after the entries, and entries that may be repeated, of
/// different lengths.
type Long = (&'static str, &'static [&'static str], &'static str);

/// Taken up to 256 bytes.
const LISTS: [Long; 19] = [
    ("C 1", &[",1", ",01"], " * * * *"),
    ("C 7 1-2", &[",1", ",01", ",13-17"], " * * *"),
    ("C * * 3", &[",3", ",31", ",1-31"], " 1 1"),
    ("C * * * 4", &[",4", ",04", ",1-12"], " 5"),
    ("C 0-59 0-23 1-31 1-12 5", &[",5", ",05", ",0-6"], ""),
    ("C 1", &[",2-3", ",50", ",0"], " 0 1 1 0-6"),
    (
        "R 20260131T0600 FREQ=WEEKLY;BYDAY=SA",
        &[",SU", ",SA", ",FR"],
        "",
    ),
    (
        "R 20260131T0600 FREQ=WEEKLY;INTERVAL=1;BYDAY=SA",
        &[",SU", ",SA", ",FR"],
        "",
    ),
    (
        "R 20260131T0600 FREQ=WEEKLY;INTERVAL=001;BYDAY=SA",
        &[",SU", ",SA", ",FR"],
        "",
    ),
    (
        "R 20260131T0600 FREQ=MONTHLY;BYDAY=SA",
        &[",SU", ",1MO", ",-1TU", ",+0005FR"],
        "",
    ),
    (
        "R 20260131T0600 BYDAY=5SA",
        &[",SU", ",1MO", ",-1TU"],
        ";FREQ=MONTHLY;COUNT=2",
    ),
    (
        "R 20260131T0600 FREQ=MONTHLY;BYMONTHDAY=31",
        &[",1", ",-1", ",+31", ",-0031"],
        "",
    ),
    (
        "R 20260131T0600 BYSETPOS=-1",
        &[",1", ",-2", ",+31"],
        ";FREQ=MONTHLY;BYMONTHDAY=31",
    ),
    (
        "R 20260131T0600 FREQ=DAILY;INTERVAL=2;BYMONTHDAY=31",
        &[",1", ",31", ",-31"],
        ";UNTIL=20270101T0000",
    ),
    (
        "R 20260131T0600 FREQ=DAILY;INTERVAL=2;BYMONTHDAY=31",
        &[",1", ",31", ",-31"],
        ";UNTIL=20270101T000000",
    ),
    (
        "R 20260131T060000 FREQ=MONTHLY;BYMONTHDAY=31",
        &[",1", ",31", ",-31"],
        ";UNTIL=20260131T0600",
    ),
    (
        "R 20260131T060000 BYMONTH=1",
        &[",1", ",12"],
        ";FREQ=YEARLY;UNTIL=20991231T235900",
    ),
    (
        "R 20260131T0600 FREQ=YEARLY;BYMONTH=1",
        &[",1", ",01", ",12", ",0008"],
        "",
    ),
    (
        "R 20260131T0600 BYMONTH=11",
        &[",3", ",01"],
        ";BYDAY=-1SA,5MO;FREQ=YEARLY",
    ),
];

/// Refused whatever their length: not of a listed form, a number out of range, a part twice, a start that is no occurrence.
const REFUSED: [Long; 22] = [
    ("Z +0100", &["0"], ""),
    ("Z +0100", &[" "], ""),
    ("Z ", &[" "], "+0100"),
    ("T 20260329T0100 +0200", &["0"], ""),
    ("T 20260329T0100", &[" "], " +0200"),
    ("D 20260329T0100", &["0"], ""),
    ("D 20260329T010000", &["0"], ""),
    ("D 2026", &["0"], "0329T0100"),
    ("X 20260329T0100", &[" "], ""),
    ("C ", &["*", " "], "* * * *"),
    ("C 60", &[",1", ",01"], " * * * *"),
    ("C 1", &[",1", ",01"], ",60 * * * *"),
    ("C 1", &[",1", ",01"], ", * * * *"),
    ("R 20260131T0600 FREQ=DAILY", &[";INTERVAL=1"], ""),
    ("R 20260131T0600 FREQ=DAILY", &[";"], ""),
    ("R 20260131T0600 FREQ=WEEKLY;BYDAY=SA", &[",MO"], ",1MO"),
    (
        "R 20260131T0600 FREQ=YEARLY;BYMONTH=1",
        &[",1", ",12"],
        ",13",
    ),
    (
        "R 20260131T0600 FREQ=YEARLY;BYMONTH=1",
        &[",1", ",12"],
        ";UNTIL=20270101T000001",
    ),
    (
        "R 20260131T0600 FREQ=YEARLY;BYMONTH=1",
        &[",1", ",12"],
        ";UNTIL=20270101T00000",
    ),
    (
        "R 20260131T0600 FREQ=YEARLY;BYMONTH=1",
        &[",1", ",12"],
        ";UNTIL=20260131T055900",
    ),
    ("R 20260131T0600 FREQ=DAILY;BYMONTH=2", &[",2", ",12"], ""),
    (
        "R 20260131T0600 FREQ=MONTHLY;BYMONTHDAY=30",
        &[",1", ",-3"],
        "",
    ),
];

pub fn all() -> Vec<Case> {
    let [_, _, after_lines] = contexts::of_others();
    let mut all = Vec::new();
    for length in LENGTHS {
        for long in LISTS.iter().chain(&REFUSED) {
            let line = of_length(long, length);
            let context = place_of(long.0);
            all.push(Case::new(context, line.clone()));
            all.push(Case::new(contexts::nothing(), line.clone()));
            if line.len() < 5_000 {
                all.extend(with_bad_bytes(context, &line));
                all.push(Case::new(context, [line.as_slice(), b"\n"].concat()));
            }
        }
        for byte in *b" 0Z\x00\n\x7F\xFF" {
            all.push(Case::new(after_lines, vec![byte; length]));
        }
    }
    all.extend(cut_to_less());
    all.extend((0..=3).map(|length| Case::new(after_lines, vec![b' '; length])));
    all
}

/// Lines of just so many bytes that are taken after others, where they are at most 256.
pub fn lists_of(length: usize) -> Vec<Vec<u8>> {
    let lines = LISTS.iter().map(|long| of_length(long, length));
    lines.filter(|line| line.len() == length).collect()
}

fn place_of(line: &str) -> Context {
    let [after_zone, _, after_lines] = contexts::of_others();
    match &line[..1] {
        "Z" => contexts::nothing(),
        "T" => contexts::zone(60),
        "C" => after_zone,
        _ => after_lines,
    }
}

/// So many bytes if the entries can fill them, else a few less: entries in turn, and at the end those that fit.
fn of_length((before, entries, after): &Long, length: usize) -> Vec<u8> {
    let mut line = before.to_string();
    let mut turn = 0;
    loop {
        let left = length.saturating_sub(line.len() + after.len());
        let in_turn = entries[turn % entries.len()];
        let fitting = entries.iter().find(|entry| entry.len() == left);
        let shortest = entries.iter().min_by_key(|entry| entry.len());
        let small = shortest.filter(|entry| entry.len() <= left);
        match (fitting, small) {
            (Some(entry), _) => line.push_str(entry),
            (None, Some(_)) if in_turn.len() + 4 < left => line.push_str(in_turn),
            (None, Some(entry)) => line.push_str(entry),
            (None, None) => break,
        }
        turn += 1;
    }
    line.push_str(after);
    line.into_bytes()
}

/// A byte outside 20 to 7E at the ends of the line, about the 256th byte and just outside of it.
fn with_bad_bytes(context: Context, line: &[u8]) -> Vec<Case> {
    let places = [0, 1, 128, 254, 255, 256, 257, line.len() - 1];
    let places = places.into_iter().filter(|&place| place < line.len());
    let damaged = |place: usize| {
        [0x00, 0x0A, 0x1F, 0x7F, 0xFF].map(|byte| {
            let mut line = line.to_vec();
            line[place] = byte;
            Case::new(context, line)
        })
    };
    places.flat_map(damaged).collect()
}

/// A line that would be taken if its length were cut to 8, 9 or 16 bits.
fn cut_to_less() -> Vec<Case> {
    let lines = [
        "Z +0100",
        "T 20260329T0100 +0200",
        "C 30 2 * * *",
        "R 20260131T0600 FREQ=DAILY",
        "D 20260329T0230",
        "X 20260329T0230",
    ];
    let mut all = Vec::new();
    for line in lines {
        for more in [256, 512, 65_536, 131_072] {
            for filler in [b" ", b"0", b"\n", b"\0"] {
                let line = [line.as_bytes(), &filler.repeat(more)].concat();
                all.push(Case::new(place_of(&String::from_utf8_lossy(&line)), line));
            }
        }
    }
    all
}
