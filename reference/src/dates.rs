//! Days and weeks: the whole calendar is written out once, day by day, and then looked up.

use std::sync::Mutex;

/// "The range is -719,162 to 2,932,896."
pub const FIRST_DAY: i64 = -719_162;
pub const LAST_DAY: i64 = 2_932_896;

/// "Dates run from 0001-01-01 to 9999-12-31."
pub const FIRST_YEAR: i64 = 1;
pub const LAST_YEAR: i64 = 9999;

#[derive(Clone, Copy, Debug, PartialEq, Eq)]
pub struct Date {
    pub year: i64,
    pub month: i64,
    pub day: i64,
}

/// "ISO dates (year, week, weekday 1 to 7)".
#[derive(Clone, Copy, Debug, PartialEq, Eq)]
pub struct IsoDate {
    pub year: i64,
    pub week: i64,
    pub weekday: i64,
}

/// One day of the calendar: its date and its ISO date, each as year, month or week, day or weekday.
struct Row {
    date: (u16, u8, u8),
    iso: (u16, u8, u8),
}

/// "A year is leap if 4 divides it, except where 100 does and 400 does not."
pub fn is_leap(year: i64) -> bool {
    year % 4 == 0 && !(year % 100 == 0 && year % 400 != 0)
}

pub fn month_length(year: i64, month: i64) -> i64 {
    match month {
        4 | 6 | 9 | 11 => 30,
        2 if is_leap(year) => 29,
        2 => 28,
        _ => 31,
    }
}

/// "Weekday (Sunday 0) is the remainder, never negative, of day + 4 by 7."
pub fn weekday(day: i64) -> i64 {
    (day + 4).rem_euclid(7)
}

pub fn day_of_date(year: i64, month: i64, day: i64) -> Option<i64> {
    day_where(|row| wide(row.date), (year, month, day))
}

pub fn date_of_day(day: i64) -> Option<Date> {
    let (year, month, day) = wide(row_of(day)?.date);
    Some(Date { year, month, day })
}

pub fn iso_of_day(day: i64) -> Option<IsoDate> {
    let (year, week, weekday) = wide(row_of(day)?.iso);
    Some(IsoDate {
        year,
        week,
        weekday,
    })
}

pub fn day_of_iso(year: i64, week: i64, weekday: i64) -> Option<i64> {
    day_where(|row| wide(row.iso), (year, week, weekday))
}

/// The row of a day, none outside the range.
fn row_of(day: i64) -> Option<&'static Row> {
    let place = usize::try_from(day.checked_sub(FIRST_DAY)?).ok()?;
    calendar().get(place)
}

/// The day whose row shows the wanted numbers, if there is one; both kinds of date rise with the day.
fn day_where(shown: fn(&Row) -> (i64, i64, i64), wanted: (i64, i64, i64)) -> Option<i64> {
    let place = calendar().binary_search_by_key(&wanted, shown).ok()?;
    Some(FIRST_DAY + place as i64)
}

fn wide((first, second, third): (u16, u8, u8)) -> (i64, i64, i64) {
    (first.into(), second.into(), third.into())
}

/// Each thread asks for the calendar once and then keeps it, so that no lookup waits for another.
fn calendar() -> &'static [Row] {
    thread_local! {
        static OURS: &'static [Row] = shared_calendar();
    }
    OURS.with(|rows| *rows)
}

/// Made by the first thread that asks; it lasts as long as the program.
fn shared_calendar() -> &'static [Row] {
    static MADE: Mutex<Option<&'static [Row]>> = Mutex::new(None);
    let mut made = MADE.lock().expect("making the calendar does not fail");
    made.get_or_insert_with(|| {
        let mut rows = written_out();
        assign_iso_weeks(&mut rows);
        Box::leak(rows.into_boxed_slice())
    })
}

/// Every date from the first to the last, one step at a time.
fn written_out() -> Vec<Row> {
    let mut rows = Vec::new();
    for year in FIRST_YEAR..=LAST_YEAR {
        for month in 1..=12 {
            for day in 1..=month_length(year, month) {
                let date = (year as u16, month as u8, day as u8);
                rows.push(Row {
                    date,
                    iso: (0, 0, 0),
                });
            }
        }
    }
    rows
}

/// "Weeks start on Monday. ISO week 1 of a year holds that year's 4 January." The first row is a Monday.
fn assign_iso_weeks(rows: &mut [Row]) {
    let (mut year, mut week) = (0, 0);
    for seven in rows.chunks_mut(7) {
        let fourth = seven.iter().find(|row| is_fourth_of_january(row));
        (year, week) = match fourth {
            Some(row) => (row.date.0, 1),
            None => (year, week + 1),
        };
        for (row, weekday) in seven.iter_mut().zip(1..) {
            row.iso = (year, week, weekday);
        }
    }
}

fn is_fourth_of_january(row: &Row) -> bool {
    (row.date.1, row.date.2) == (1, 4)
}
