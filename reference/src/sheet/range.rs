//! Every number and date of a line: refusal 5,
//! "number or date out of range, or a cron range whose first number is above its second".

use std::ops::RangeInclusive;

use super::form::{Form, OffsetDigits, Part, TimeDigits, Written};
use super::line::{Field, WeekdayEntry};
use crate::local::minute_of;
use crate::zone::OFFSETS;

/// A line whose times are local minutes (instants for `T`) and whose offsets are minutes.
pub type InRange = Form<i64, i64>;

/// "minute 0 to 59, hour 0 to 23, day of month 1 to 31, month 1 to 12, day of week 0 to 6".
pub const CRON_FIELDS: [RangeInclusive<i64>; 5] = [0..=59, 0..=23, 1..=31, 1..=12, 0..=6];

/// None if a number or date is out of range.
pub fn read(line: Written) -> Option<InRange> {
    Some(match line {
        Form::Zone(digits) => Form::Zone(offset(&digits)?),
        Form::Transition(when, digits) => Form::Transition(time(&when)?, offset(&digits)?),
        Form::Cron(fields) => {
            let mut pairs = fields.iter().zip(CRON_FIELDS);
            if !pairs.all(|(field, range)| cron_field_holds(field, &range)) {
                return None;
            }
            Form::Cron(fields)
        }
        Form::Rule(start, parts) => {
            let parts: Option<Vec<_>> = parts.into_iter().map(part).collect();
            Form::Rule(time(&start)?, parts?)
        }
        Form::Extra(when) => Form::Extra(time(&when)?),
        Form::Excepted(when) => Form::Excepted(time(&when)?),
    })
}

/// "year 2000 to 2099", and a date and a time of day that exist; T-02: "Seconds other than 00 are refusal 5."
fn time(digits: &TimeDigits) -> Option<i64> {
    let minute = minute_of(
        digits.year,
        digits.month,
        digits.day,
        digits.hour,
        digits.minute,
    );
    minute.filter(|_| digits.second == 0)
}

/// "minutes at most 59, from -720 minutes to +840 minutes in all; `-0000` is out of range".
fn offset(digits: &OffsetDigits) -> Option<i64> {
    let total = digits.hours * 60 + digits.minutes;
    let is_minus_zero = digits.is_negative && total == 0;
    let signed = if digits.is_negative { -total } else { total };
    (digits.minutes <= 59 && !is_minus_zero && OFFSETS.contains(&signed)).then_some(signed)
}

/// "Each of the five cron fields has a lowest and a highest number"; "the first not above the second".
fn cron_field_holds(field: &Field, range: &RangeInclusive<i64>) -> bool {
    match field {
        Field::Star => true,
        Field::List(elements) => elements.iter().all(|element| {
            range.contains(&element.first)
                && range.contains(&element.last)
                && element.first <= element.last
        }),
    }
}

fn part(part: Part<TimeDigits>) -> Option<Part<i64>> {
    match part {
        Part::Freq(frequency) => Some(Part::Freq(frequency)),
        // "`INTERVAL=` 1 to 999"
        Part::Interval(number) => (1..=999)
            .contains(&number)
            .then_some(Part::Interval(number)),
        // "`COUNT=` 1 to 9999"
        Part::Count(number) => (1..=9999).contains(&number).then_some(Part::Count(number)),
        Part::Until(digits) => Some(Part::Until(time(&digits)?)),
        Part::ByDay(entries) => entries
            .iter()
            .all(ordinal_holds)
            .then_some(Part::ByDay(entries)),
        Part::ByMonthDay(days) => days
            .iter()
            .all(month_day_holds)
            .then_some(Part::ByMonthDay(days)),
        // "`BYSETPOS=` likewise (house limit)"
        Part::BySetPos(places) => places
            .iter()
            .all(month_day_holds)
            .then_some(Part::BySetPos(places)),
        // "`BYMONTH=` 1 to 12"
        Part::ByMonth(months) => months
            .iter()
            .all(|month| (1..=12).contains(month))
            .then_some(Part::ByMonth(months)),
    }
}

/// "an optional signed ordinal -5 to 5 without 0".
fn ordinal_holds(entry: &WeekdayEntry) -> bool {
    entry
        .ordinal
        .map_or(true, |ordinal| (1..=5).contains(&ordinal.abs()))
}

/// "-31 to 31 without 0".
fn month_day_holds(day: &i64) -> bool {
    (1..=31).contains(&day.abs())
}
