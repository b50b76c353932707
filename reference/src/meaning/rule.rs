//! The local minutes of a rule line, from its text: periods walked one by one, COUNT counted.

use std::ops::RangeInclusive;

use crate::dates::{date_of_day, day_of_date, month_length, weekday, Date};
use crate::local::{day_of_minute, minute_at, time_of_minute, LAST_DAY};
use crate::sheet::line::{Frequency, Rule, WeekdayEntry};

/// "Then COUNT keeps the first so many; UNTIL keeps those not later than it."
pub fn occurrences(rule: &Rule) -> impl Iterator<Item = i64> + '_ {
    let most = rule.count.map_or(usize::MAX, |count| count as usize);
    unlimited(rule)
        .take(most)
        .take_while(|minute| rule.until.map_or(true, |until| *minute <= until))
}

/// The COUNT-th occurrence, if there are so many.
pub fn nth_occurrence(rule: &Rule, count: i64) -> Option<i64> {
    unlimited(rule).nth(count as usize - 1)
}

/// "start not an occurrence of its rule (COUNT and UNTIL left out)". "Period 0 holds the start", so no other is looked at.
pub fn start_is_occurrence(rule: &Rule) -> bool {
    let days = positions(rule, day_set(rule, period(rule, 0)));
    days.contains(&day_of_minute(rule.start))
}

/// All occurrences, COUNT and UNTIL left out. "Drop what is before the start or after 2099."
/// "The time of day is the start's."
fn unlimited(rule: &Rule) -> impl Iterator<Item = i64> + '_ {
    // "Period 0 holds the start; every INTERVAL-th from there counts."
    (0..)
        .map(|number| period(rule, number * rule.interval))
        .take_while(|period| *period.start() <= LAST_DAY)
        .flat_map(|period| positions(rule, day_set(rule, period)))
        .filter(|&day| day <= LAST_DAY)
        .map(|day| minute_at(day, time_of_minute(rule.start)))
        .filter(|&minute| minute >= rule.start)
}

/// "Periods are days, Monday weeks or months." "For YEARLY the period is the calendar year".
fn period(rule: &Rule, number: i64) -> RangeInclusive<i64> {
    let start = day_of_minute(rule.start);
    match rule.frequency {
        Frequency::Daily => start + number..=start + number,
        Frequency::Weekly => {
            let monday = start - (weekday(start) + 6) % 7 + 7 * number;
            monday..=monday + 6
        }
        Frequency::Monthly => {
            let date = date_of(start);
            let months = date.year * 12 + date.month - 1 + number;
            month(months / 12, months % 12 + 1)
        }
        Frequency::Yearly => {
            let year = date_of(start).year + number;
            *month(year, 1).start()..=*month(year, 12).end()
        }
    }
}

fn month(year: i64, month: i64) -> RangeInclusive<i64> {
    let first = day_of_date(year, month, 1).expect("a month past the window is in the calendar");
    first..=first + month_length(year, month) - 1
}

fn date_of(day: i64) -> Date {
    date_of_day(day).expect("a day of the window is in the calendar")
}

/// "the period's whole rising day set".
fn day_set(rule: &Rule, period: RangeInclusive<i64>) -> Vec<i64> {
    period
        .filter(|&day| month_allows(rule, day) && is_in_set(rule, day))
        .collect()
}

/// "For the other frequencies BYMONTH only limits." For YEARLY days are picked "in the months of BYMONTH, or in
/// all months without it; with neither, [..] in the BYMONTH months, or in the start's month".
fn month_allows(rule: &Rule, day: i64) -> bool {
    let month = date_of(day).month;
    let neither = rule.by_day.is_none() && rule.by_month_day.is_none();
    match (rule.frequency, &rule.by_month) {
        (_, Some(months)) => months.contains(&month),
        (Frequency::Yearly, None) if neither => month == date_of(day_of_minute(rule.start)).month,
        (_, None) => true,
    }
}

/// Rule 2. "DAILY: the day, if BYDAY and BYMONTHDAY, where given, both allow it." "MONTHLY: days that satisfy
/// each of BYDAY and BYMONTHDAY that is given". YEARLY: "both must allow a day, if both are given".
fn is_in_set(rule: &Rule, day: i64) -> bool {
    let start = day_of_minute(rule.start);
    match (rule.frequency, &rule.by_day, &rule.by_month_day) {
        // "WEEKLY: the days of BYDAY, by default the start's weekday."
        (Frequency::Weekly, None, _) => weekday(day) == weekday(start),
        // "with neither, the start's day of month. A month without that day gives nothing."
        (Frequency::Monthly, None, None) => date_of(day).day == date_of(start).day,
        // "with neither, the start's day"; "29 February comes in leap years only."
        (Frequency::Yearly, None, None) => date_of(day).day == date_of(start).day,
        (_, by_day, by_month_day) => {
            let by_day_allows = by_day
                .as_ref()
                .map_or(true, |list| weekday_matches(list, day));
            let by_month_day_allows = by_month_day
                .as_ref()
                .map_or(true, |list| month_day_matches(list, day));
            by_day_allows && by_month_day_allows
        }
    }
}

/// "A weekday list matches if any entry does."
fn weekday_matches(list: &[WeekdayEntry], day: i64) -> bool {
    list.iter().any(|entry| {
        let place_matches = |ordinal| ordinals_of(day).contains(&ordinal);
        entry.weekday == weekday(day) && entry.ordinal.map_or(true, place_matches)
    })
}

/// "An ordinal weekday is counted within the month, from its end if negative."
fn ordinals_of(day: i64) -> [i64; 2] {
    let date = date_of(day);
    let same_weekday: Vec<i64> = month(date.year, date.month)
        .filter(|&other| weekday(other) == weekday(day))
        .collect();
    let up_to = same_weekday.iter().filter(|&&other| other <= day).count();
    let from = same_weekday.iter().filter(|&&other| other >= day).count();
    [up_to as i64, -(from as i64)]
}

/// "`-1` as month day is the last day."
fn month_day_matches(list: &[i64], day: i64) -> bool {
    let date = date_of(day);
    let from_the_end = date.day - month_length(date.year, date.month) - 1;
    list.contains(&date.day) || list.contains(&from_the_end)
}

/// "BYSETPOS picks from the period's whole rising day set, days before the start included; a place that does
/// not exist picks nothing."
fn positions(rule: &Rule, days: Vec<i64>) -> Vec<i64> {
    let places = match &rule.by_set_pos {
        Some(places) => places,
        None => return days,
    };
    let length = days.len() as i64;
    let is_picked =
        |index: i64| places.contains(&(index + 1)) || places.contains(&(index - length));
    days.into_iter()
        .zip(0..)
        .filter(|(_, index)| is_picked(*index))
        .map(|(day, _)| day)
        .collect()
}
