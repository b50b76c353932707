//! T-02: times with seconds, in every place where a time stands; and what the suites ask of them.

use std::collections::BTreeSet;

use reference::answer_lines::answer_in;
use reference::cases_lines;
use reference::entries::compile;
use reference::generate::{sheet, with_seconds};
use reference::random::Random;

/// The places where a time stands, after a Z.
const PLACES: [&str; 6] = [
    "T {} +0200",
    "R {} FREQ=DAILY",
    "R 20260105T0600 FREQ=DAILY;UNTIL={}",
    "R 20260105T060000 UNTIL={};FREQ=DAILY",
    "D {}",
    "X {}",
];

/// The number that refuses the line after a Z, or 0, and the plan.
fn after_zone(place: &str, clock: &str) -> (u64, String) {
    let line = place.replace("{}", &format!("20260105T{clock}"));
    let (answer, plan) = compile(format!("Z +0100\n{line}\n").as_bytes(), usize::MAX);
    (answer.number, plan)
}

/// "Wherever a sheet line has a time, four or six digits may follow the `T`." "Plans do not change."
#[test]
fn both_forms_are_one_time() {
    for place in PLACES {
        let (number, plan) = after_zone(place, "060000");
        assert_eq!(number, 0, "{place}");
        assert_eq!(plan, after_zone(place, "0600").1, "{place}");
    }
    let mut random = Random::new(2);
    let mut differ = 0;
    for _ in 0..300 {
        let text = sheet(&mut random);
        let mixed = with_seconds(&text, &mut random);
        let plans = [&text, &mixed].map(|text| compile(text.as_bytes(), usize::MAX).1);
        assert_eq!(plans[0], plans[1], "{mixed}");
        differ += usize::from(text != mixed && !plans[0].is_empty());
    }
    assert!(differ > 250, "{differ}");
}

/// "Seconds other than 00 are refusal 5."
#[test]
fn seconds() {
    for place in PLACES {
        for second in 1..=99 {
            let (number, plan) = after_zone(place, &format!("0600{second:02}"));
            assert_eq!((number, plan.as_str()), (5, ""), "{place} {second}");
        }
    }
}

/// "four or six digits", and no other number of them.
#[test]
fn digits() {
    for place in PLACES {
        for length in (0..=9).filter(|length| ![4, 6].contains(length)) {
            let clock = &"060000000"[..length];
            assert_eq!(after_zone(place, clock).0, 3, "{place} {clock}");
        }
        for clock in [
            "0600Z", "060000Z", "06000O", "06:00:00", "0600.00", "0600+00",
        ] {
            assert_eq!(after_zone(place, clock).0, 3, "{place} {clock}");
        }
    }
}

/// "in it the lowest of 2 to 8 that applies".
#[test]
fn ranks() {
    for place in PLACES {
        let line = place.replace("{}", "20260105T060001");
        let first = |line: &str| compile(format!("{line}\n").as_bytes(), 0).0.number;
        assert_eq!(first(&line), 4, "{line}");
        assert_eq!(first(&format!("{line}x")), 3, "{line}");
        assert_eq!(first(&format!("{line}\t")), 2, "{line}");
    }
    let apart = "R {} FREQ=DAILY;COUNT=1;UNTIL=20250101T000000";
    assert_eq!(after_zone(apart, "060001").0, 5);
    assert_eq!(after_zone(apart, "060000").0, 6);
    let limits = "T {} +0500";
    assert_eq!(after_zone(limits, "060001").0, 5);
    assert_eq!(after_zone(limits, "060000").0, 7);
    let early = "R {} FREQ=DAILY;UNTIL=20250101T000000";
    assert_eq!(after_zone(early, "060001").0, 5);
    assert_eq!(after_zone(early, "060000").0, 8);
}

fn ends_in_seconds(text: &str) -> bool {
    let clock = text.rsplit_once('T').map_or("", |(_, clock)| clock);
    clock.len() == 6 && clock.bytes().all(|byte| byte.is_ascii_digit())
}

/// Taken and refused lines of every kind with seconds, and lines of 256 and 257 bytes that end in them.
#[test]
fn the_suite_lines_asks_them() {
    let mut numbers = BTreeSet::new();
    let mut lengths = BTreeSet::new();
    for case in cases_lines::cases(1, 0) {
        let number = answer_in(&case.context, &case.line).err().unwrap_or(0);
        let line = std::str::from_utf8(&case.line).unwrap_or("");
        let words = line.split([' ', ';', '=', '\n']);
        if words.into_iter().any(ends_in_seconds) {
            numbers.insert((line.chars().next(), number));
        }
        if ends_in_seconds(line) {
            lengths.insert((line.len(), number));
        }
    }
    for tag in ['T', 'R', 'D', 'X'] {
        for number in [0, 2, 3, 4, 5] {
            assert!(numbers.contains(&(Some(tag), number)), "{tag} {number}");
        }
    }
    for wanted in [('R', 6), ('T', 7), ('R', 8)] {
        assert!(numbers.contains(&(Some(wanted.0), wanted.1)), "{wanted:?}");
    }
    for wanted in [(256, 0), (256, 5), (256, 8), (257, 2)] {
        assert!(lengths.contains(&wanted), "{wanted:?}");
    }
}
