//! Random C lines; and lines with each set of restricted fields.

use std::ops::RangeInclusive;

use crate::random::Random;
use crate::sheet::CRON_FIELDS;

/// The days of 2027 and 2028, over which they are asked.
pub const TWO_YEARS: usize = 365 + 366;

/// Day of month, month and day of week: `*`; a number; a list that few or many days match; the whole field, which is
/// restricted.
const DAYS: [&str; 4] = ["*", "13", "29-31", "1-31"];
const MONTHS: [&str; 4] = ["*", "6", "2,12", "1-12"];
const WEEKDAYS: [&str; 4] = ["*", "5", "0,6", "0-6"];

/// A line for each of the eight sets of restricted fields among day of month, month and day of week.
pub fn eight_cron_lines() -> Vec<String> {
    lines_of_days(2)
}

/// These and others with the same sets, 64 in all.
pub fn all_cron_lines() -> Vec<String> {
    lines_of_days(4)
}

/// Lines of midnight with the first so many of each field.
fn lines_of_days(many: usize) -> Vec<String> {
    let mut lines = Vec::new();
    for day in &DAYS[..many] {
        for month in &MONTHS[..many] {
            let weekdays = WEEKDAYS[..many].iter();
            lines.extend(weekdays.map(|weekday| format!("C 0 0 {day} {month} {weekday}")));
        }
    }
    lines
}

/// A C line. The minute and the hour are seldom `*`, so that few lines hold millions of minutes.
pub fn cron_line(random: &mut Random) -> String {
    let stars = [20, 3, 2, 2, 2]; // a star in so many
    let fields: Vec<String> = CRON_FIELDS
        .iter()
        .zip(stars)
        .map(|(range, one_in)| match random.between(1, one_in) {
            1 => "*".to_string(),
            _ => element_list(range, random),
        })
        .collect();
    format!("C {}", fields.join(" "))
}

fn element_list(range: &RangeInclusive<i64>, random: &mut Random) -> String {
    let elements: Vec<String> = (0..random.between(1, 3))
        .map(|_| element(range, random))
        .collect();
    elements.join(",")
}

/// A number, a range, and now and then the whole field, which is restricted all the same.
fn element(range: &RangeInclusive<i64>, random: &mut Random) -> String {
    let first = random.between(*range.start(), *range.end());
    match random.between(0, 9) {
        0 => format!("{}-{}", range.start(), range.end()),
        1 | 2 => format!("{first}-{}", random.between(first, *range.end())),
        3 => format!("{first:04}"),
        _ => first.to_string(),
    }
}
