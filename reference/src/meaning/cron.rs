//! The local minutes of a cron line, from its text.

use crate::dates::{date_of_day, weekday};
use crate::local::{days, minute_at, MINUTES_OF_A_DAY};
use crate::minutes::MinuteSet;
use crate::sheet::line::Cron;

/// "A local minute is held if minute, hour and month match and the day does", of which the day and its month are by
/// T-04.
pub fn add(cron: &Cron, minutes: &mut MinuteSet) {
    let times: Vec<i64> = (0..MINUTES_OF_A_DAY)
        .filter(|time| cron.minute.matches(time % 60) && cron.hour.matches(time / 60))
        .collect();
    for day in days().filter(|&day| holds_day(cron, day)) {
        for time in &times {
            minutes.add(minute_at(day, *time));
        }
    }
}

/// "if month or day of month is restricted and day of week is too, a day is held if it matches month and day of month
/// together, or the day of week alone. Otherwise all three must match."
fn holds_day(cron: &Cron, day: i64) -> bool {
    date_of_day(day).map_or(false, |date| {
        let month_and_day = cron.month.matches(date.month) && cron.day_of_month.matches(date.day);
        let day_of_week = cron.day_of_week.matches(weekday(day));
        let one_restricted = cron.month.is_restricted() || cron.day_of_month.is_restricted();
        if one_restricted && cron.day_of_week.is_restricted() {
            month_and_day || day_of_week
        } else {
            month_and_day && day_of_week
        }
    })
}
