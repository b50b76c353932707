//! Days and weeks: the marked cases (a) to (g) and facts that are known from outside.

use reference::answer::answer;
use reference::dates::{
    date_of_day, day_of_date, day_of_iso, is_leap, iso_of_day, month_length, weekday, FIRST_DAY,
    LAST_DAY,
};

fn check(table: &[(&str, &str)]) {
    for (request, wanted) in table {
        assert_eq!(answer(request).as_deref(), Some(*wanted), "{request}");
    }
}

#[test]
fn marked_cases_a_to_g() {
    check(&[
        ("day_of_date 1970 1 1", "0 0"),
        ("day_of_date 1969 12 31", "0 -1"),
        ("day_of_date 1 1 1", "0 -719162"),
        ("iso_of_day -719162", "0 1 1 1"),
        ("day_of_date 9999 12 31", "0 2932896"),
        ("day_of_date 2000 2 29", "0 11016"),
        ("day_of_date 1900 2 29", "5 0"),
        ("day_of_date 2027 1 1", "0 20819"),
        ("iso_of_day 20819", "0 2026 53 5"),
    ]);
    assert_eq!(weekday(FIRST_DAY), 1);
}

#[test]
fn the_ends_of_the_range() {
    check(&[
        ("date_of_day -719163", "5 0 0 0"),
        ("date_of_day -719162", "0 1 1 1"),
        ("date_of_day 2932896", "0 9999 12 31"),
        ("date_of_day 2932897", "5 0 0 0"),
        ("iso_of_day -719163", "5 0 0 0"),
        ("iso_of_day 2932896", "0 9999 52 5"),
        ("iso_of_day 2932897", "5 0 0 0"),
        ("day_of_iso 1 1 1", "0 -719162"),
        ("day_of_iso 9999 52 5", "0 2932896"),
        ("day_of_iso 9999 52 6", "5 0"),
        ("day_of_iso 9999 53 1", "5 0"),
        ("day_of_iso 0 52 7", "5 0"),
        ("day_of_date 0 12 31", "5 0"),
        ("day_of_date 10000 1 1", "5 0"),
        ("date_of_day 9223372036854775807", "5 0 0 0"),
        ("date_of_day -9223372036854775808", "5 0 0 0"),
    ]);
}

/// The examples of the ISO 8601 literature.
#[test]
fn known_iso_dates() {
    let table = [
        ((2005, 1, 1), (2004, 53, 6)),
        ((2005, 1, 2), (2004, 53, 7)),
        ((2005, 12, 31), (2005, 52, 6)),
        ((2006, 1, 1), (2005, 52, 7)),
        ((2006, 1, 2), (2006, 1, 1)),
        ((2007, 1, 1), (2007, 1, 1)),
        ((2007, 12, 30), (2007, 52, 7)),
        ((2007, 12, 31), (2008, 1, 1)),
        ((2008, 12, 28), (2008, 52, 7)),
        ((2008, 12, 29), (2009, 1, 1)),
        ((2009, 12, 31), (2009, 53, 4)),
        ((2010, 1, 3), (2009, 53, 7)),
    ];
    for ((year, month, day), (iso_year, week, iso_weekday)) in table {
        let number = day_of_date(year, month, day);
        let iso = number.and_then(iso_of_day);
        let shown = iso.map(|iso| (iso.year, iso.week, iso.weekday));
        assert_eq!(shown, Some((iso_year, week, iso_weekday)));
        assert_eq!(day_of_iso(iso_year, week, iso_weekday), number);
    }
}

#[test]
fn week_53_only_where_the_year_has_one() {
    let long_years: Vec<i64> = (2000..2100)
        .filter(|&year| day_of_iso(year, 53, 1).is_some())
        .collect();
    let wanted = [
        2004, 2009, 2015, 2020, 2026, 2032, 2037, 2043, 2048, 2054, 2060, 2065, 2071, 2076, 2082,
        2088, 2093, 2099,
    ];
    assert_eq!(long_years, wanted);
}

#[test]
fn leap_years_and_month_lengths() {
    assert_eq!(
        [1600, 1900, 2000, 2023, 2024, 2100].map(is_leap),
        [true, false, true, false, true, false]
    );
    let lengths: Vec<i64> = (1..=12).map(|month| month_length(2023, month)).collect();
    assert_eq!(lengths, [31, 28, 31, 30, 31, 30, 31, 31, 30, 31, 30, 31]);
    assert_eq!(month_length(2024, 2), 29);
}

/// Every day goes there and back, both ways, and the two weekdays agree.
#[test]
fn every_day_goes_both_ways() {
    for day in FIRST_DAY..=LAST_DAY {
        let date = date_of_day(day).expect("a day of the range has a date");
        let iso = iso_of_day(day).expect("a day of the range has an ISO date");
        assert_eq!(day_of_date(date.year, date.month, date.day), Some(day));
        assert_eq!(day_of_iso(iso.year, iso.week, iso.weekday), Some(day));
        assert_eq!(weekday(day), iso.weekday % 7);
    }
}
