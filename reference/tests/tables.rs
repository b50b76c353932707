//! The tables of written answers: the reference agrees with them, they hold what they should, and a difference names its row.

use std::collections::BTreeSet;
use std::process::Command;

use reference::answer::answer;
use reference::dates::{date_of_day, day_of_date, weekday};
use reference::local::{day_of_minute, written};
use reference::tables::examples::{examples, CRONTAB, RFC5545};
use reference::tables::limits::limits;
use reference::tables::{rows, Row};

const BINARY: &str = env!("CARGO_BIN_EXE_reference");
const SUITES: [&str; 4] = ["examples", "limits_dates", "limits_plans", "limits_sheets"];

fn rows_of(suite: &str) -> Vec<Row> {
    rows(suite).expect("there is such a suite")
}

#[test]
fn the_reference_agrees() {
    for row in SUITES.into_iter().flat_map(rows_of) {
        assert_eq!(answer(&row.request), Some(row.answer), "{}", row.name);
    }
}

#[test]
fn the_examples_are_there() {
    assert_eq!(examples(RFC5545).len(), 33);
    assert_eq!(examples(CRONTAB).len(), 14);
    assert_eq!(rows_of("examples").len(), 2 * 47);
}

/// "moved into range": 28 years before, the RFC's own dates have the same weekdays.
#[test]
fn moving_the_examples_keeps_their_weekdays() {
    for example in examples(RFC5545) {
        assert!(example.line[2..].starts_with(&written(example.times[0].minute)));
        for time in example.times {
            let day = day_of_minute(time.minute);
            let date = date_of_day(day).expect("a day of the window");
            let printed = day_of_date(date.year - 28, date.month, date.day);
            assert_eq!(
                printed.map(weekday),
                Some(weekday(day)),
                "{}",
                example.title
            );
        }
    }
}

/// Each limit once, with both sides and different answers; every refusal; and every row in one of the suites.
#[test]
fn the_limits_have_two_sides() {
    let all = limits();
    assert!(all.len() >= 240, "{}", all.len());
    let names: BTreeSet<&String> = all.iter().map(|limit| &limit.name).collect();
    assert_eq!(names.len(), all.len());
    for limit in &all {
        match limit.rows.as_slice() {
            [within, beyond, ..] => assert_ne!(within.answer, beyond.answer, "{}", limit.name),
            _ => panic!("one side alone: {}", limit.name),
        }
    }
    let rows = |suite: &&str| rows_of(suite).len();
    let asked: usize = SUITES[1..].iter().map(rows).sum();
    assert_eq!(asked, all.iter().map(|limit| limit.rows.len()).sum());
    let numbers = all.iter().flat_map(|limit| &limit.rows);
    let numbers: BTreeSet<&str> = numbers
        .filter_map(|row| row.answer.split(' ').next())
        .collect();
    assert_eq!(numbers.len(), 12, "{numbers:?}"); // 0 to 11
}

/// The driver takes the plan of 65 frames, and answers all else rightly.
#[test]
fn a_difference_names_its_row() {
    let rows = rows_of("limits_plans");
    let at = rows.iter().position(|row| row.name.ends_with(": 65"));
    let line = at.expect("a row for 65 frames") + 1;
    let driver = format!("'{BINARY}' answer | sed '{line}s/.*/0 0/'");
    let words = ["compare", "limits_plans", "--", "sh", "-c", driver.as_str()];
    let ended = Command::new(BINARY).args(words).output();
    let ended = ended.expect("the reference runs");
    let said = String::from_utf8_lossy(&ended.stdout);
    assert!(!ended.status.success());
    let limit = "differs: [frames before the end frame, at most 64: 65] check ";
    assert!(said.contains(limit), "{said}");
    let outcome = format!("compared {} answers, 1 differ\n", rows.len() + 2);
    assert!(said.ends_with(&outcome), "{said}"); // two rows have two answers
}
