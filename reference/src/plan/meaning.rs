//! "A plan's meaning is the sheet meaning read from these fields, with no counting."

use std::ops::RangeInclusive;

use super::frame::{CronFrame, Frame, RuleFrame};
use super::Plan;
use crate::dates::{date_of_day, day_of_date, month_length, weekday, Date};
use crate::local::{day_of_minute, days, minute_at, time_of_minute, MINUTES_OF_A_DAY};
use crate::meaning::Meaning;
use crate::minutes::MinuteSet;

/// "Bit n of a mask stands for n".
fn bit(mask: u64, number: i64) -> bool {
    mask >> number & 1 == 1
}

pub fn of_plan(plan: &Plan) -> Meaning {
    let mut minutes = MinuteSet::empty();
    for frame in &plan.frames {
        match frame {
            Frame::Cron(cron) => add_cron(cron, &mut minutes),
            Frame::Rule(rule) => add_rule(rule, &mut minutes),
            Frame::Extra { minute } => minutes.add(*minute),
            _ => {}
        }
    }
    for frame in &plan.frames {
        if let Frame::Excepted { minute } = frame {
            minutes.take_away(*minute);
        }
    }
    Meaning {
        zone: plan.zone.clone(),
        minutes,
    }
}

fn add_cron(cron: &CronFrame, minutes: &mut MinuteSet) {
    let times: Vec<i64> = (0..MINUTES_OF_A_DAY)
        .filter(|time| bit(cron.minutes, time % 60) && bit(cron.hours, time / 60))
        .collect();
    for day in days().filter(|&day| cron_holds_day(cron, day)) {
        for time in &times {
            minutes.add(minute_at(day, *time));
        }
    }
}

/// "flags 1 (bit 0 day of month restricted, bit 1 day of week restricted)", bit 2 the month: "if month or day of month
/// is restricted and day of week is too", one of the two suffices; "Otherwise all three must match."
fn cron_holds_day(cron: &CronFrame, day: i64) -> bool {
    let date = date_of(day);
    let [of_month, of_week, month] = [0, 1, 2].map(|flag| bit(cron.flags, flag));
    let matches = [
        bit(cron.months, date.month) && bit(cron.days, date.day),
        bit(cron.weekdays, weekday(day)),
    ];
    match (month || of_month) && of_week {
        true => matches.contains(&true),
        false => !matches.contains(&false),
    }
}

fn add_rule(rule: &RuleFrame, minutes: &mut MinuteSet) {
    let time = time_of_minute(rule.start);
    days()
        .filter(|&day| rule_holds_day(rule, day))
        .map(|day| minute_at(day, time))
        .filter(|minute| (rule.start..=rule.last).contains(minute))
        .for_each(|minute| minutes.add(minute));
}

/// "start an occurrence", judged without *last*.
pub fn start_is_occurrence(rule: &RuleFrame) -> bool {
    rule_holds_day(rule, day_of_minute(rule.start))
}

/// A day of a counted period's set, and at one of its positions if there are any.
fn rule_holds_day(rule: &RuleFrame, day: i64) -> bool {
    let counts = periods_from_start(rule, day) % rule.interval == 0;
    counts && in_day_set(rule, day) && position_holds(rule, day)
}

/// "Period 0 holds the start; every INTERVAL-th from there counts."
fn periods_from_start(rule: &RuleFrame, day: i64) -> i64 {
    period_number(rule, day) - period_number(rule, day_of_minute(rule.start))
}

/// "Periods are days, Monday weeks or months", or calendar years: so many since some fixed one.
fn period_number(rule: &RuleFrame, day: i64) -> i64 {
    let date = date_of(day);
    match rule.frequency {
        1 => day,
        2 => (day + 3).div_euclid(7), // day -3 is a Monday
        3 => date.year * 12 + date.month,
        _ => date.year,
    }
}

/// "A zero month-day pair, weekday group or position pair means no such limit", and so does a zero month mask.
fn in_day_set(rule: &RuleFrame, day: i64) -> bool {
    (!rule.has_months() || bit(rule.months, date_of(day).month))
        && (!rule.has_month_days() || month_days_hold(rule, day))
        && (!rule.has_weekdays() || weekdays_hold(rule, day))
}

/// "bit n from the end for -n".
fn month_days_hold(rule: &RuleFrame, day: i64) -> bool {
    let date = date_of(day);
    let from_end = month_length(date.year, date.month) + 1 - date.day;
    bit(rule.month_days, date.day) || bit(rule.month_days_from_end, from_end)
}

/// The n-th of its weekday lies 7 (n - 1) to 7 n - 1 days after the month's first, or before its last.
fn weekdays_hold(rule: &RuleFrame, day: i64) -> bool {
    let date = date_of(day);
    let days_before = date.day - 1;
    let days_after = month_length(date.year, date.month) - date.day;
    let ordinal = rule.ordinals[(days_before / 7) as usize];
    let ordinal_from_end = rule.ordinals_from_end[(days_after / 7) as usize];
    bit(
        rule.plain_weekdays | ordinal | ordinal_from_end,
        weekday(day),
    )
}

/// Positions are places in the whole month's or year's set, from its front and from its end.
fn position_holds(rule: &RuleFrame, day: i64) -> bool {
    if !rule.has_positions() {
        return true;
    }
    let period = month_or_year(rule, day);
    let place = set_days(rule, *period.start()..=day);
    let place_from_end = set_days(rule, day..=*period.end());
    bit(rule.positions, place) || bit(rule.positions_from_end, place_from_end)
}

/// The days of the period that holds the day; only a monthly or a yearly rule has positions.
fn month_or_year(rule: &RuleFrame, day: i64) -> RangeInclusive<i64> {
    let date = date_of(day);
    let (first, last) = match rule.frequency {
        3 => (date.month, date.month),
        _ => (1, 12),
    };
    let day_of = |month, day| day_of_date(date.year, month, day);
    let ends = day_of(first, 1).zip(day_of(last, month_length(date.year, last)));
    let (first, last) = ends.expect("a month has a first and a last day");
    first..=last
}

/// How many of these days are in the set, counted as far as one past the last position that a mask can have.
fn set_days(rule: &RuleFrame, days: RangeInclusive<i64>) -> i64 {
    let in_set = days.filter(|&day| in_day_set(rule, day));
    in_set.take(32).count() as i64
}

fn date_of(day: i64) -> Date {
    date_of_day(day).expect("a day of the window is in the calendar")
}
