//! The plan text of a taken sheet: "One frame for each sheet line, in order, then the end frame."

use crate::dates::{date_of_day, weekday};
use crate::local::{day_of_minute, LAST_MINUTE};
use crate::meaning::rule::nth_occurrence;
use crate::sheet::line::{Cron, Field, Frequency, Line, Rule};
use crate::sheet::CRON_FIELDS;

/// "One frame a line: upper-case hex digits, LF."
pub fn plan_text(lines: &[Line]) -> String {
    // "number of frames before it"
    let end = [0xFF, lines.len() as u8];
    let frames: String = lines.iter().map(line_text).collect();
    frames + &frame_text(&end)
}

/// The frame of one line, with its LF.
pub fn line_text(line: &Line) -> String {
    frame_text(&frame(line))
}

fn frame_text(bytes: &[u8]) -> String {
    let digits: String = bytes.iter().map(|byte| format!("{byte:02X}")).collect();
    digits + "\n"
}

fn frame(line: &Line) -> Vec<u8> {
    match line {
        Line::Zone(offset) => kind_and(0x01, &[(*offset, 2)]),
        Line::Transition(transition) => {
            kind_and(0x02, &[(transition.instant, 4), (transition.offset, 2)])
        }
        Line::Cron(cron) => cron_frame(cron),
        Line::Rule(rule) => rule_frame(rule),
        Line::Extra(minute) => kind_and(0x05, &[(*minute, 4)]),
        Line::Excepted(minute) => kind_and(0x06, &[(*minute, 4)]),
    }
}

/// The kind and then each number with so many bytes. "Big-endian; offsets and instants in two's complement."
fn kind_and(kind: u8, numbers: &[(i64, usize)]) -> Vec<u8> {
    let mut bytes = vec![kind];
    for (number, length) in numbers {
        bytes.extend_from_slice(&number.to_be_bytes()[8 - length..]);
    }
    bytes
}

/// "Bit n of a mask stands for n".
fn mask(numbers: impl Iterator<Item = i64>) -> i64 {
    numbers.fold(0, |bits, number| bits | 1 << number)
}

/// "minute mask 8, hour mask 4, day mask 4, month mask 2, weekday mask 1, flags 1 (bit 0 day of month
/// restricted, bit 1 day of week restricted)"; "Flag bit 2 [..] says that the month is restricted".
fn cron_frame(cron: &Cron) -> Vec<u8> {
    let [minutes, hours, days, months, weekdays] = CRON_FIELDS;
    let matching = |field: &Field, range: std::ops::RangeInclusive<i64>| {
        mask(range.filter(|&number| field.matches(number)))
    };
    let flagged = [&cron.day_of_month, &cron.day_of_week, &cron.month];
    let restricted = flagged.map(Field::is_restricted);
    let flags = (0..).zip(restricted).filter(|(_, set)| *set);
    kind_and(
        0x03,
        &[
            (matching(&cron.minute, minutes), 8),
            (matching(&cron.hour, hours), 4),
            (matching(&cron.day_of_month, days), 4),
            (matching(&cron.month, months), 2),
            (matching(&cron.day_of_week, weekdays), 1),
            (mask(flags.map(|(bit, _)| bit)), 1),
        ],
    )
}

/// "frequency 1 (1 daily, 2 weekly, 3 monthly), interval 2, start 4, last 4, plain weekday mask 1, month days
/// 4, month days from the end 4, ordinals 1..5 one weekday mask each, ordinals -1..-5 likewise, positions 4,
/// positions from the end 4"; "a month mask of 2 bytes at its end".
fn rule_frame(rule: &Rule) -> Vec<u8> {
    let month_days = month_days(rule);
    let positions = rule.by_set_pos.clone().unwrap_or_default();
    let mut numbers = vec![
        (frequency_number(rule.frequency), 1),
        (rule.interval, 2),
        (rule.start, 4),
        (last(rule), 4),
        (plain_weekdays(rule), 1),
        (from_the_front(&month_days), 4),
        (from_the_end(&month_days), 4),
    ];
    for ordinal in [1, 2, 3, 4, 5, -1, -2, -3, -4, -5] {
        numbers.push((weekdays_with(rule, Some(ordinal)), 1));
    }
    numbers.push((from_the_front(&positions), 4));
    numbers.push((from_the_end(&positions), 4));
    numbers.push((mask(months(rule).into_iter()), 2));
    kind_and(0x04, &numbers)
}

fn frequency_number(frequency: Frequency) -> i64 {
    match frequency {
        Frequency::Daily => 1,
        Frequency::Weekly => 2,
        Frequency::Monthly => 3,
        Frequency::Yearly => 4,
    }
}

/// "*Last* is UNTIL, or the COUNT-th occurrence's local minute, or 52,595,999 if there is neither or fewer
/// occurrences exist."
fn last(rule: &Rule) -> i64 {
    let counted = rule.count.and_then(|count| nth_occurrence(rule, count));
    rule.until.or(counted).unwrap_or(LAST_MINUTE)
}

/// The weekdays of the entries with this ordinal, or without one.
fn weekdays_with(rule: &Rule, ordinal: Option<i64>) -> i64 {
    let entries = rule.by_day.iter().flatten();
    mask(
        entries
            .filter(|entry| entry.ordinal == ordinal)
            .map(|entry| entry.weekday),
    )
}

/// "Defaults of rule 2 are filled in": "WEEKLY: [..] by default the start's weekday".
fn plain_weekdays(rule: &Rule) -> i64 {
    match (rule.frequency, &rule.by_day) {
        (Frequency::Weekly, None) => mask([weekday(day_of_minute(rule.start))].into_iter()),
        _ => weekdays_with(rule, None),
    }
}

/// "MONTHLY: [..] with neither, the start's day of month"; YEARLY: "with neither, the start's day".
fn month_days(rule: &Rule) -> Vec<i64> {
    match (rule.frequency, &rule.by_day, &rule.by_month_day) {
        (Frequency::Monthly | Frequency::Yearly, None, None) => {
            let date = date_of_day(day_of_minute(rule.start));
            date.map(|date| date.day).into_iter().collect()
        }
        (_, _, given) => given.clone().unwrap_or_default(),
    }
}

/// "zero for no limit"; YEARLY: "with neither, [..] in the BYMONTH months, or in the start's month".
fn months(rule: &Rule) -> Vec<i64> {
    let neither = rule.by_day.is_none() && rule.by_month_day.is_none();
    match (rule.frequency, &rule.by_month) {
        (Frequency::Yearly, None) if neither => {
            let date = date_of_day(day_of_minute(rule.start));
            date.map(|date| date.month).into_iter().collect()
        }
        (_, given) => given.clone().unwrap_or_default(),
    }
}

fn from_the_front(numbers: &[i64]) -> i64 {
    mask(numbers.iter().copied().filter(|&number| number > 0))
}

/// "bit n from the end for -n".
fn from_the_end(numbers: &[i64]) -> i64 {
    mask(
        numbers
            .iter()
            .filter(|&&number| number < 0)
            .map(|&number| -number),
    )
}
