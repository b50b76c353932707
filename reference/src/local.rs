//! "Local minutes count from 2000-01-01 00:00 wall time (day 10,957) to 2099-12-31 23:59, so 0 to 52,595,999."
//! "Instants count from 2000-01-01 00:00 UTC and may be negative": the same numbers, read from a UTC clock.

use std::ops::RangeInclusive;

use crate::dates::{date_of_day, day_of_date};

pub const FIRST_DAY: i64 = 10_957;
pub const LAST_DAY: i64 = 47_481;
pub const FIRST_MINUTE: i64 = 0;
pub const LAST_MINUTE: i64 = 52_595_999;
pub const MINUTES_OF_A_DAY: i64 = 1_440;

pub fn days() -> RangeInclusive<i64> {
    FIRST_DAY..=LAST_DAY
}

pub fn is_local_minute(minute: i64) -> bool {
    (FIRST_MINUTE..=LAST_MINUTE).contains(&minute)
}

/// The day on which a minute lies; a week or month may begin before the first.
pub fn day_of_minute(minute: i64) -> i64 {
    FIRST_DAY + minute.div_euclid(MINUTES_OF_A_DAY)
}

/// Minutes since midnight.
pub fn time_of_minute(minute: i64) -> i64 {
    minute.rem_euclid(MINUTES_OF_A_DAY)
}

pub fn minute_at(day: i64, time: i64) -> i64 {
    (day - FIRST_DAY) * MINUTES_OF_A_DAY + time
}

/// The local minute of a date and a time, "year 2000 to 2099"; none if there is no such minute.
pub fn minute_of(year: i64, month: i64, day: i64, hour: i64, minute: i64) -> Option<i64> {
    let in_range =
        (2000..=2099).contains(&year) && (0..=23).contains(&hour) && (0..=59).contains(&minute);
    let day = day_of_date(year, month, day).filter(|_| in_range)?;
    Some(minute_at(day, hour * 60 + minute))
}

/// "A *time* is `YYYYMMDDTHHMM`"; empty outside the calendar.
pub fn written(minute: i64) -> String {
    let time = time_of_minute(minute);
    let (hour, minute_of_hour) = (time / 60, time % 60);
    date_of_day(day_of_minute(minute)).map_or(String::new(), |date| {
        format!(
            "{:04}{:02}{:02}T{hour:02}{minute_of_hour:02}",
            date.year, date.month, date.day
        )
    })
}
