//! Cron lines with each set of restricted fields, against POSIX's sentences over a calendar that is counted here; and what the suites
//! ask of them.

use std::collections::BTreeSet;

use reference::entries::{compile, Loaded};
use reference::generate::{all_cron_lines, eight_cron_lines};
use reference::hex::bytes_of;
use reference::local::written;
use reference::meaning::{of_sheet, Meaning};
use reference::{cases_frames, cases_plans, cases_sheets, plan, sheet};

fn meaning(line: &str) -> Meaning {
    let lines = sheet::read(format!("Z +0000\n{line}\n").as_bytes());
    of_sheet(&lines.unwrap_or_else(|refusal| panic!("{refusal:?}: {line}")))
}

fn plan_of(line: &str) -> String {
    compile(format!("Z +0000\n{line}\n").as_bytes(), usize::MAX).1
}

/// A day of the window: its place there, from 0, year, month, day of month and weekday.
struct Day {
    place: i64,
    year: i64,
    month: i64,
    day: i64,
    weekday: i64,
}

/// Every day from 2000-01-01, a Saturday, to 2099-12-31. Of these years every fourth is leap.
fn window() -> Vec<Day> {
    let mut days = Vec::new();
    for year in 2000..=2099 {
        let february = if year % 4 == 0 { 29 } else { 28 };
        let lengths = [31, february, 31, 30, 31, 30, 31, 31, 30, 31, 30, 31];
        for (month, length) in (1..).zip(lengths) {
            for day in 1..=length {
                let place = days.len() as i64;
                days.push(Day {
                    place,
                    year,
                    month,
                    day,
                    weekday: (6 + place) % 7,
                });
            }
        }
    }
    days
}

/// Whether a number is one of a list of elements.
fn listed(list: &str, number: i64) -> bool {
    list.split(',').any(|element| {
        let (first, last) = element.split_once('-').unwrap_or((element, element));
        let [first, last] = [first, last].map(|text| text.parse::<i64>().expect("a number"));
        first <= number && number <= last
    })
}

/// Whether a crontab of POSIX holds a day: its four sentences, in their order and in short.
fn posix_holds(line: &str, date: &Day) -> bool {
    let fields: Vec<&str> = line.split(' ').collect();
    let (day, month, weekday) = (fields[3], fields[4], fields[5]);
    let month_and_day =
        (month == "*" || listed(month, date.month)) && (day == "*" || listed(day, date.day));
    match (month == "*" && day == "*", weekday == "*") {
        // all three are asterisks: every day
        (true, true) => true,
        // the day of week is one, but month or day of month is a list: month and day of month say which days
        (false, true) => month_and_day,
        // month and day of month are, but the day of week is a list: those days of the week alone
        (true, false) => listed(weekday, date.weekday),
        // month or day of month is a list, and the day of week too: any day that matches month and day of month, or the day of
        // week
        (false, false) => month_and_day || listed(weekday, date.weekday),
    }
}

/// The 64 lines over the whole century, by the sheet's text and by the plan.
#[test]
fn every_set_of_restricted_fields() {
    let window = window();
    assert_eq!(all_cron_lines().len(), 64);
    for line in all_cron_lines() {
        let wanted = window.iter().filter(|date| posix_holds(&line, date));
        let wanted: Vec<i64> = wanted.map(|date| 1_440 * date.place).collect();
        let held: Vec<i64> = meaning(&line).minutes.rising_from(0).collect();
        assert_eq!(held, wanted, "{line}");
        let taken = plan::read(plan_of(&line).as_bytes()).expect("the plan is taken");
        let by_plan: Vec<i64> = plan::of_plan(&taken).minutes.rising_from(0).collect();
        assert_eq!(by_plan, wanted, "the plan of {line}");
    }
}

/// The eight lines; the days of 2026, of 2027, of 2028 and of the century that each holds, counted by Python's datetime.
#[test]
fn how_many_days() {
    let known = [
        ("C 0 0 * * *", [365, 365, 366], 36_525),
        ("C 0 0 * * 5", [52, 53, 52], 5_217),
        ("C 0 0 * 6 *", [30, 30, 30], 3_000),
        ("C 0 0 * 6 5", [78, 79, 77], 7_788),
        ("C 0 0 13 * *", [12, 12, 12], 1_200),
        ("C 0 0 13 * 5", [61, 64, 63], 6_245),
        ("C 0 0 13 6 *", [1, 1, 1], 100),
        ("C 0 0 13 6 5", [53, 54, 53], 5_302),
    ];
    assert_eq!(eight_cron_lines(), known.map(|(line, _, _)| line));
    let window = window();
    for (line, years, century) in known {
        let meaning = meaning(line);
        let held = window
            .iter()
            .filter(|date| meaning.minutes.holds(1_440 * date.place));
        let held: Vec<i64> = held.map(|date| date.year).collect();
        let of_year = |wanted: i64| held.iter().filter(|&&year| year == wanted).count();
        assert_eq!([2026, 2027, 2028].map(of_year), years, "{line}");
        assert_eq!(meaning.minutes.rising_from(0).count(), century, "{line}");
    }
}

/// The dates that a line of midnight holds in a month.
fn dates(line: &str, month: &str) -> Vec<i64> {
    let meaning = meaning(line);
    let times = meaning.minutes.rising_from(0).map(written);
    let of_month = times.filter(|time| time.starts_with(month));
    of_month
        .map(|time| {
            assert!(time.ends_with("T0000"), "{time}");
            time[6..8].parse().expect("a day")
        })
        .collect()
}

/// "So `0 0 * 6 1` is every day of June and every Monday, not the Mondays of June."
#[test]
fn june_and_every_monday() {
    let line = "C 0 0 * 6 1";
    assert_eq!(dates(line, "202605"), [4, 11, 18, 25]);
    assert_eq!(dates(line, "202606"), (1..=30).collect::<Vec<_>>());
    assert_eq!(dates(line, "202607"), [6, 13, 20, 27]);
    let plan = "010000\n03000000000000000100000001FFFFFFFE00400206\nFF02\n";
    assert_eq!(plan_of(line), plan);
    let loaded = Loaded::new(plan.as_bytes());
    let mut asked = -1;
    for minute in meaning(line).minutes.rising_from(0).take(2_000) {
        asked = loaded.next(asked).instant;
        assert_eq!(asked, minute);
    }
}

#[test]
fn june_13_and_every_friday() {
    let line = "C 0 0 13 6 5";
    assert_eq!(dates(line, "202605"), [1, 8, 15, 22, 29]);
    assert_eq!(dates(line, "202606"), [5, 12, 13, 19, 26]);
    assert_eq!(dates(line, "202607"), [3, 10, 17, 24, 31]);
    assert_eq!(dates("C 0 0 30 2 5", "202702"), [5, 12, 19, 26]);
    let plan = "010000\n03000000000000000100000001000020000040\
                2007\nFF02\n";
    assert_eq!(plan_of(line), plan);
}

/// A list of all months is restricted: with a day of week it holds every day.
#[test]
fn all_months_are_restricted() {
    let every_day = meaning("C 0 0 * * *").minutes;
    for line in [
        "C 0 0 * 1-12 1",
        "C 0 0 * 1-6,7-12 0-6",
        "C 0 0 1-31 1-12 1",
    ] {
        assert!(meaning(line).minutes == every_day, "{line}");
    }
    assert!(meaning("C 0 0 * 1-12 *") == meaning("C 0 0 * * *"));
    assert!(meaning("C 0 0 13 1-12 5") == meaning("C 0 0 13 * 5"));
}

/// Bit 0 day of month, bit 1 day of week, bit 2 month.
#[test]
fn flags_say_which_are_restricted() {
    for line in all_cron_lines() {
        let fields: Vec<bool> = line.split(' ').map(|field| field != "*").collect();
        let flags = [fields[3], fields[5], fields[4]];
        let flags = (0..).zip(flags).map(|(bit, set)| u64::from(set) << bit);
        let frame = plan_of(&line);
        let frame = frame.lines().nth(1).expect("a second line");
        assert_eq!(frame[40..], format!("{:02X}", flags.sum::<u64>()), "{line}");
    }
}

/// The suites ask each of the eight over two years, both ways; `frames` over the century.
#[test]
fn the_suites_ask_them() {
    let frames: BTreeSet<String> = cases_frames::requests(1, 0).collect();
    let plans: BTreeSet<String> = cases_plans::requests(1, 0).collect();
    let sheets: BTreeSet<String> = cases_sheets::requests(1, 0).collect();
    for line in eight_cron_lines() {
        let plan = plan_of(&line);
        let frame = plan.lines().nth(1).expect("a second line").to_string();
        assert!(frames.contains(&format!("rising 0 36525 {frame}")));
        assert!(frames.contains(&format!("falling 52595999 36525 {frame}")));
        let of_sheet = |start: &str| {
            let is_asked = |request: &String| request.starts_with(start) && request.contains(&line);
            sheets.iter().any(is_asked)
        };
        assert!(of_sheet("sheet_next 731 ") && of_sheet("sheet_previous 731 "));
        let hex = frame.bytes().map(|byte| format!("{byte:02X}"));
        let hex: String = hex.collect();
        for name in ["next ", "previous "] {
            let is_asked = |request: &&String| {
                request.starts_with(name) && request.contains(&hex) && request.ends_with(" 731")
            };
            assert_eq!(plans.iter().filter(is_asked).count(), 1, "{name}{line}");
        }
    }
}

/// Each flag value 0 to 8, and more, with every choice of full masks: taken exactly where each clear flag has a full mask and no other
/// bit is set.
#[test]
fn the_suite_asks_flags() {
    let mut seen = BTreeSet::new();
    for request in cases_plans::requests(1, 0) {
        let text = match request.strip_prefix("check ") {
            Some(word) => String::from_utf8(bytes_of(word)).unwrap_or_default(),
            None => continue,
        };
        let lines: Vec<&str> = text.lines().collect();
        let cron = match lines[..] {
            ["01003C", _, cron, "FF03"] if cron.len() == 42 && cron.starts_with("03") => cron,
            _ => continue,
        };
        let full = [&cron[26..34], &cron[38..40], &cron[34..38]];
        let full = [0, 1, 2].map(|at| full[at] == ["FFFFFFFE", "7F", "1FFE"][at]);
        let flags = u64::from_str_radix(&cron[40..], 16).unwrap_or(0);
        let clear_are_full = (0..3).all(|bit| flags >> bit & 1 == 1 || full[bit]);
        let checked = Loaded::new(text.as_bytes()).check();
        let wanted = match clear_are_full && flags < 8 {
            true => (0, 0),
            false => (10, 3),
        };
        assert_eq!((checked.number, checked.line), wanted, "{cron}");
        seen.insert((flags, full));
    }
    for flags in 0..=8 {
        let choices = seen.iter().filter(|(found, _)| *found == flags);
        assert_eq!(choices.count(), 8, "{flags}");
    }
}
