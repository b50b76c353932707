//! About how long the prover takes over a COUNT: the definitions count an occurrence's days one by one.

use crate::local::{time_of_minute, LAST_MINUTE, MINUTES_OF_A_DAY};
use crate::meaning::rule::nth_occurrence;
use crate::sheet::line::{Frequency, Line, Rule};

/// The days from the start on that are walked until the COUNT-th occurrence is found.
pub fn days_to_last(line: &Line) -> i64 {
    counted(line).map_or(0, |(rule, count)| {
        let last = nth_occurrence(rule, count).unwrap_or(LAST_MINUTE);
        weighted_days(rule, last)
    })
}

/// The days that are counted to find whether a local minute is held.
pub fn days_to_minute(line: &Line, minute: i64) -> i64 {
    counted(line)
        .filter(|(rule, _)| time_of_minute(rule.start) == time_of_minute(minute))
        .map_or(0, |(rule, _)| weighted_days(rule, minute))
}

fn counted(line: &Line) -> Option<(&Rule, i64)> {
    match line {
        Line::Rule(rule) => rule.count.map(|count| (rule, count)),
        _ => None,
    }
}

fn weighted_days(rule: &Rule, until: i64) -> i64 {
    let days = (until - rule.start) / MINUTES_OF_A_DAY;
    days.max(0) * tests_of_a_day(rule)
}

/// A day is tested by each entry; for a position its month's or year's days are tested too.
fn tests_of_a_day(rule: &Rule) -> i64 {
    let entries = rule.by_day.as_ref().map_or(0, Vec::len) as i64;
    let month_days = rule.by_month_day.as_ref().map_or(0, Vec::len) as i64;
    let positions = rule.by_set_pos.as_ref().map_or(0, Vec::len) as i64;
    let months = if rule.frequency == Frequency::Yearly {
        12
    } else {
        1
    };
    (2 + entries + month_days) * (1 + 2 * positions * months)
}
