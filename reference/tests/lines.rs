//! One line and what stands before it: the reference's answers, and what the suite `lines` asks.

use std::collections::{BTreeMap, BTreeSet};

use reference::answer::answer;
use reference::answer_lines::{answer_in, request, Before, Context};
use reference::cases_lines::ranks::{case, faults_of, pairs, TAGS};
use reference::cases_lines::{cases, Case};
use reference::compile::line_text;
use reference::generate::{bad_sheet, sheet};
use reference::random::Random;
use reference::sheet::line::Line;
use reference::sheet::read;
use reference::shown::{bytes_of, shown};

const NOTHING: Context = Context {
    before: Before::Nothing,
    low: -1_440,
    offset: -1_440,
};

const LINES: Context = Context {
    before: Before::Lines,
    low: 0,
    offset: 0,
};

fn zone(changes: i64, low: i64, offset: i64) -> Context {
    Context {
        before: Before::Zone { changes },
        low,
        offset,
    }
}

fn number(context: &Context, line: &str) -> u64 {
    answer_in(context, line.as_bytes()).err().unwrap_or(0)
}

/// Document 01's example, line by line.
#[test]
fn the_example() {
    let taken = |context: &Context, line: &str| answer_in(context, line.as_bytes()).unwrap();
    assert_eq!(taken(&NOTHING, "Z +0100"), "01003C\n");
    let first = "T 20260329T0100 +0200";
    assert_eq!(taken(&zone(0, 0, 60), first), "0200D2963C0078\n");
    let second = "T 20261025T0100 +0100";
    let after_first = zone(1, 13_801_020 + 2_880, 120);
    assert_eq!(taken(&after_first, second), "0200D7337C003C\n");
    let cron = "03000000004000000000000004FFFFFFFE1FFE7F00\n";
    assert_eq!(taken(&LINES, "C 30 2 * * *"), cron);
}

#[test]
fn transitions() {
    let line = "T 20260329T0100 +0200"; // 13,801,020
    for (changes, low, offset, wanted) in [
        (0, 0, 60, 0),
        (0, -1_440, 60, 0),
        (1, 13_801_020, 60, 0),
        (1, 13_801_021, 60, 7),
        (31, 13_801_020, 60, 0),
        (32, 13_801_020, 60, 4),
        (33, 13_801_020, 60, 4),
        (64, 13_801_020, 60, 4),
        (256, 13_801_020, 60, 4),
        (1 << 32, 13_801_020, 60, 4),
        (1, 0, 120, 7),
        (1, 0, 119, 0),
        (1, 0, 300, 0),
        (1, 0, 301, 7),
        (1, 0, -60, 0),
        (1, 0, -61, 7),
    ] {
        let context = zone(changes, low, offset);
        assert_eq!(number(&context, line), wanted, "{context:?}");
    }
    assert_eq!(number(&NOTHING, line), 4);
    assert_eq!(number(&LINES, line), 4);
}

#[test]
fn requests_say_bytes_and_numbers() {
    let every: Vec<u8> = (0..=255).collect();
    assert_eq!(bytes_of(&shown(&every)), Some(every));
    for bad in ["\\", "\\0", "\\0a", "\\+1", "\\41", "\u{e9}"] {
        assert_eq!(bytes_of(bad), None, "{bad}");
    }
    let asked = request(&zone(1, 1_440, -60), 80, b"D \\\n");
    assert_eq!(asked, "line 1 1 2880 1380 80 D \\5C\\0A");
    assert_eq!(answer(&asked).as_deref(), Some("2 0 -"));
    assert_eq!(answer("line 0 0 0 0 80 ").as_deref(), Some("3 0 -"));
    assert_eq!(
        answer("line 0 0 0 0 80 Z +0100").as_deref(),
        Some("0 7 01003C\\0A")
    );
    assert_eq!(answer("line 3 0 0 0 80 Z +0100"), None);
    assert_eq!(answer("line 0 0 0 0 80"), None);
}

/// A line that is taken stays so, and one that is refused too.
#[test]
fn a_buffer_may_be_too_small() {
    for (room, line, wanted) in [
        (0, "Z +0100", "0 0 -"),
        (6, "Z +0100", "0 0 -"),
        (7, "Z +0100", "0 7 01003C\\0A"),
        (0, "Z +1401", "5 0 -"),
    ] {
        let asked = request(&NOTHING, room, line.as_bytes());
        assert_eq!(answer(&asked).as_deref(), Some(wanted), "{asked}");
    }
}

/// What stands before the next line, by the taken lines themselves.
fn context_of(lines: &[Line]) -> Context {
    let mut context = NOTHING;
    for line in lines {
        context = match (line, context.before) {
            (Line::Zone(offset), _) => zone(0, 0, *offset),
            (Line::Transition(next), Before::Zone { changes }) => {
                zone(changes + 1, next.instant + 2_880, next.offset)
            }
            _ => Context {
                before: Before::Lines,
                ..context
            },
        };
    }
    context
}

/// Line by line the same comes out as for the sheet as a whole.
#[test]
fn sheets_line_by_line() {
    let mut random = Random::new(1);
    let good = (0..100).map(|_| sheet(&mut random).into_bytes());
    let mut sheets: Vec<Vec<u8>> = good.collect();
    sheets.extend((0..3_000).map(|round| bad_sheet(2 + round % 8, &mut random)));
    let mut seen = BTreeSet::new();
    for sheet in sheets.iter().filter(|sheet| sheet.ends_with(b"\n")) {
        let refused = match read(sheet) {
            Err(refusal) if refusal.number == 1 => continue,
            Err(refusal) => (refusal.number, refusal.line),
            Ok(_) => (0, 0),
        };
        let mut found = (0, 0);
        let mut before: Vec<Line> = Vec::new();
        for line in sheet[..sheet.len() - 1].split(|&byte| byte == b'\n') {
            let whole = [text_of(sheet, before.len()), line.to_vec(), b"\n".to_vec()].concat();
            match answer_in(&context_of(&before), line) {
                Ok(frame) => {
                    let mut lines = read(&whole).expect("each line before was taken");
                    let last = lines.pop().expect("there is a line");
                    assert_eq!(frame, line_text(&last));
                    before.push(last);
                }
                Err(number) => {
                    found = (number, before.len() as u64 + 1);
                    break;
                }
            }
        }
        assert_eq!(found, refused, "{}", shown(sheet));
        seen.insert(found.0);
    }
    assert_eq!(seen, BTreeSet::from([0, 2, 3, 4, 5, 6, 7, 8]));
}

/// The first lines of a sheet.
fn text_of(sheet: &[u8], lines: usize) -> Vec<u8> {
    let pieces = sheet.split_inclusive(|&byte| byte == b'\n');
    pieces.take(lines).flatten().copied().collect()
}

fn number_of(case: &Case) -> u64 {
    answer_in(&case.context, &case.line).err().unwrap_or(0)
}

/// A line with one fault is refused by its number, and one with two by the lower.
#[test]
fn faults_made_on_purpose() {
    let mut seen = BTreeSet::new();
    for tag in TAGS {
        assert_eq!(number_of(&case(tag, &[])), 0, "{tag}");
        for fault in faults_of(tag) {
            let made = case(tag, &[fault]);
            assert_eq!(number_of(&made), fault.0, "{}", shown(&made.line));
        }
        for (one, other) in pairs(tag) {
            let made = case(tag, &[one, other]);
            assert_eq!(number_of(&made), one.0, "{}", shown(&made.line));
            seen.insert((one.0, other.0));
        }
    }
    let mut writable: BTreeSet<(u64, u64)> = BTreeSet::new();
    for one in 2..=8 {
        writable.extend((one + 1..=8).map(|other| (one, other)));
    }
    // 7 is of a T, 6 and 8 are of an R
    writable.remove(&(6, 7));
    writable.remove(&(7, 8));
    assert_eq!(seen, writable);
}

/// At least so many cases, of each refusal, and of each kind that is taken.
#[test]
fn the_suite_asks_enough() {
    let mut numbers: BTreeMap<u64, u64> = BTreeMap::new();
    let mut taken: BTreeMap<u8, u64> = BTreeMap::new();
    let mut at_256: BTreeMap<u8, u64> = BTreeMap::new();
    let mut longest = 0;
    for case in cases(1, 1) {
        let number = number_of(&case);
        *numbers.entry(number).or_default() += 1;
        if number == 0 {
            *taken.entry(case.line[0]).or_default() += 1;
            if case.line.len() == 256 {
                *at_256.entry(case.line[0]).or_default() += 1;
            }
        }
        longest = longest.max(case.line.len());
    }
    println!("{numbers:?} {taken:?} {at_256:?}");
    assert!(numbers.values().sum::<u64>() >= 200_000);
    assert!(longest >= 100_000);
    assert!(at_256[&b'C'] >= 6 && at_256[&b'R'] >= 6, "{at_256:?}"); // the kinds that can be so long
    for number in [0, 2, 3, 4, 5, 6, 7, 8] {
        assert!(numbers[&number] >= 2_000, "{number}: {numbers:?}");
    }
    for tag in *b"ZTCRDX" {
        assert!(taken[&tag] >= 1_000, "{tag}: {taken:?}");
    }
}

/// A line of each kind in a buffer of no bytes, of one too few and of just enough.
#[test]
fn the_suite_asks_small_buffers() {
    let mut seen = BTreeSet::new();
    for case in cases(1, 0) {
        let frame = answer_in(&case.context, &case.line);
        if let (Some(room), Ok(frame)) = (case.room, frame) {
            seen.insert((case.line[0], room, frame.len() as i64 - room));
        }
    }
    for tag in *b"ZTCRDX" {
        let of_tag: Vec<_> = seen.iter().filter(|(of, ..)| *of == tag).collect();
        assert!(of_tag.iter().any(|(_, room, _)| *room == 0), "{tag}");
        for missing in [1, 0] {
            assert!(of_tag.iter().any(|(.., less)| *less == missing), "{tag}");
        }
    }
}

/// A T that is refused by nothing but the number of T before it.
#[test]
fn the_suite_asks_too_many_transitions() {
    let mut seen = BTreeSet::new();
    for case in cases(1, 0) {
        if let Before::Zone { changes } = case.context.before {
            let fewer = zone(31, case.context.low, case.context.offset);
            if number_of(&case) == 4 && answer_in(&fewer, &case.line).is_ok() {
                seen.insert(changes);
            }
        }
    }
    assert_eq!(seen, BTreeSet::from([32, 33, 64, 256, 1 << 32]));
}
