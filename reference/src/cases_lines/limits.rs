//! Numbers, dates, offsets, transitions and starts at both sides of every limit.

use super::well_formed::RULES;
use super::{contexts, Case};
use crate::generate::{self, offset_text};
use crate::local::{is_local_minute, minute_of, written, LAST_MINUTE, MINUTES_OF_A_DAY};
use crate::meaning::rule::occurrences;
use crate::sheet::line::Line;
use crate::sheet::{read_line, CRON_FIELDS};
use crate::zone::{LEAST_DISTANCE, OFFSETS};

const FREQUENCIES: [&str; 4] = ["FREQ=DAILY", "FREQ=WEEKLY", "FREQ=MONTHLY", "FREQ=YEARLY"];
const WEEKDAYS: [&str; 7] = ["SU", "MO", "TU", "WE", "TH", "FR", "SA"];

/// No digits, one to many, and zeros before them. The last three are 1 where a number is cut to 16, 32 or 64 bits.
const DIGITS: &str =
    " 0 00 000 0000 00000 1 01 001 0001 00001 2 0002 999 0999 00999 1000 01000 9999 09999 10000 \
    99999 100000 65537 4294967297 18446744073709551617";

/// Times at both sides of the limits of year, month, day, hour and minute.
const TIMES: [&str; 25] = [
    "19991231T2359",
    "20000101T0000",
    "20000101T0001",
    "20991231T2358",
    "20991231T2359",
    "21000101T0000",
    "20280229T0000",
    "20270229T0000",
    "20000229T2359",
    "21000229T0000",
    "20260100T0600",
    "20260101T0600",
    "20260131T0600",
    "20260132T0600",
    "20260430T0600",
    "20260431T0600",
    "20260005T0600",
    "20261305T0600",
    "20261205T0600",
    "20260105T2359",
    "20260105T2400",
    "20260105T0059",
    "20260105T0060",
    "99999999T9999",
    "00000000T0000",
];

/// The places where a time stands.
const PLACES_OF_A_TIME: [&str; 12] = [
    "T {} +0200",
    "D {}",
    "X {}",
    "R {} FREQ=DAILY",
    "R {} FREQ=WEEKLY",
    "R {} FREQ=MONTHLY;COUNT=2",
    "R {} FREQ=YEARLY;COUNT=2",
    "R {} BYMONTH=1,2,3,4,12;FREQ=YEARLY",
    "R 20000101T0000 FREQ=DAILY;UNTIL={}",
    "R 20000101T0000 UNTIL={};FREQ=MONTHLY",
    "R {} UNTIL=20500101T0000;FREQ=WEEKLY",
    "R {} FREQ=DAILY;UNTIL={}",
];

pub fn all() -> Vec<Case> {
    let all = [
        dates(),
        clocks(),
        times(),
        seconds(),
        digits_of_clocks(),
        offsets(),
        changes(),
        distances(),
        cron_numbers(),
        cron_ranges(),
        intervals(),
        digits(),
        signed_numbers(),
        numbers_of_years(),
        months(),
        counts(),
        untils(),
        moved_starts(),
    ];
    all.into_iter().flatten().collect()
}

fn after_lines(line: String) -> Case {
    let [_, _, context] = contexts::of_others();
    Case::new(context, line)
}

/// Every day of every month, and what lies beside them, in years at both sides of the limits.
fn dates() -> Vec<Case> {
    let years = [
        0, 1, 1970, 1999, 2000, 2001, 2004, 2096, 2098, 2099, 2100, 2400, 9999,
    ];
    let mut all = Vec::new();
    for year in years {
        for month in (0..=13).chain([99]) {
            for day in (0..=32).chain([99]) {
                all.push(after_lines(format!("D {year:04}{month:02}{day:02}T0600")));
            }
        }
    }
    all
}

/// Every hour and minute, and what lies beside them.
fn clocks() -> Vec<Case> {
    let mut all = Vec::new();
    for hour in (0..=25).chain([99]) {
        for minute in (0..=61).chain([99]) {
            all.push(after_lines(format!("X 20260105T{hour:02}{minute:02}")));
        }
    }
    all
}

/// The time in every place where one stands.
fn in_every_place(time: &str) -> Vec<Case> {
    let mut all = Vec::new();
    for place in PLACES_OF_A_TIME {
        let line = place.replace("{}", time);
        all.push(Case::new(contexts::zone(60), line.clone()));
        all.push(Case::new(contexts::after(1, 0, 60), line));
    }
    all
}

/// Times at the limits, without seconds and with some.
fn times() -> Vec<Case> {
    let seconds = ["", "00", "01", "60"];
    let all = TIMES
        .into_iter()
        .flat_map(|time| seconds.map(|s| format!("{time}{s}")));
    all.flat_map(|time| in_every_place(&time)).collect()
}

/// Every second, and what lies beside them; also of a minute, an hour and a day that end with it.
fn seconds() -> Vec<Case> {
    let mut all = Vec::new();
    for second in 0..=99 {
        all.extend(in_every_place(&format!("20260131T0600{second:02}")));
        all.push(after_lines(format!("D 20260131T2359{second:02}")));
        all.push(after_lines(format!("X 20991231T2359{second:02}")));
    }
    all
}

/// None to twelve digits after the `T`: zeros, ones, and such as are a time of day where the last are left out.
fn digits_of_clocks() -> Vec<Case> {
    let mut all = Vec::new();
    for length in 0..=12 {
        for digits in [
            "000000000000",
            "111111111111",
            "060000000000",
            "235900123456",
        ] {
            let time = format!("20260131T{}", &digits[..length]);
            all.extend(in_every_place(&time));
            all.extend(["Z", " ", ".", ";"].map(|after| after_lines(format!("D {time}{after}"))));
        }
    }
    all
}

/// Hours and minutes of an offset, both signs.
fn offsets() -> Vec<Case> {
    let mut all = Vec::new();
    for hours in (0..=16).chain([20, 24, 60, 99]) {
        for minutes in 0..=99 {
            for sign in ['+', '-'] {
                let line = format!("Z {sign}{hours:02}{minutes:02}");
                all.push(Case::new(contexts::nothing(), line));
            }
        }
    }
    all
}

/// Every change of offset by up to 183 minutes, from offsets at both ends of theirs and within.
fn changes() -> Vec<Case> {
    let (least, most) = (*OFFSETS.start(), *OFFSETS.end());
    let mut all = Vec::new();
    for before in [least, least + 1, -61, -1, 0, 1, 60, most - 1, most] {
        for change in -183..=183 {
            let offset = offset_text(before + change);
            let line = format!("T 20260329T0100 {offset}");
            all.push(Case::new(contexts::zone(before), line.clone()));
            all.push(Case::new(contexts::after(7, 0, before), line));
        }
    }
    for context in [0, 1, -1, 60, -60].map(contexts::zone) {
        let lines = ["-0000", "+0000", "-0001", "+0060", "-0060"];
        let lines = lines.map(|offset| format!("T 20260329T0100 {offset}"));
        all.extend(lines.map(|line| Case::new(context, line)));
    }
    all
}

/// A transition at distances and with changes at both sides of their limits, after none to 32 others and after far more.
fn distances() -> Vec<Case> {
    let before = [0, 1, 13_800_960, LAST_MINUTE - LEAST_DISTANCE, LAST_MINUTE];
    let distances = [
        -LEAST_DISTANCE,
        -1,
        0,
        1,
        MINUTES_OF_A_DAY,
        LEAST_DISTANCE - 1,
        LEAST_DISTANCE,
        LEAST_DISTANCE + 1,
        LEAST_DISTANCE + MINUTES_OF_A_DAY,
    ];
    let mut all = Vec::new();
    for instant in before {
        for next in distances.map(|distance| instant + distance) {
            for change in [-181, -180, -1, 0, 1, 180, 181] {
                let line = format!("T {} {}", written(next), offset_text(60 + change));
                if is_local_minute(next) {
                    let after = |number| contexts::after(number, instant, 60);
                    let numbers = [1, 2, 30, 31].into_iter().chain(contexts::TOO_MANY);
                    let contexts = numbers.map(after).chain([contexts::zone(60)]);
                    all.extend(contexts.map(|context| Case::new(context, line.clone())));
                }
            }
        }
    }
    all
}

/// A C line with this field, the others being `*`, and one with the others restricted.
fn with_field(place: usize, field: &str) -> [Case; 2] {
    ["*", "1"].map(|other| {
        let mut fields = [other; 5];
        fields[place] = field;
        after_lines(format!("C {}", fields.join(" ")))
    })
}

/// Every number of each field and those beside them, alone, with zeros before it and in lists; and `DIGITS`.
fn cron_numbers() -> Vec<Case> {
    let mut all = Vec::new();
    for (place, range) in CRON_FIELDS.iter().enumerate() {
        let (lowest, highest) = (*range.start(), *range.end());
        let numbers = (0..=highest + 1).chain([99, 100, 255, 256, 9_999]);
        for number in numbers {
            let plain = format!("{number}");
            let zeros = (2..=5).map(|width| format!("{number:0width$}"));
            let lists = [
                format!("{lowest},{number}"),
                format!("{number},{highest}"),
                format!("{lowest},{number},{lowest}"),
                format!("{lowest}-{highest},{number}"),
                format!("{number},{number}"),
            ];
            for field in [plain].into_iter().chain(zeros).chain(lists) {
                all.extend(with_field(place, &field));
            }
        }
        let every: Vec<String> = range.clone().map(|number| number.to_string()).collect();
        all.extend(with_field(place, &every.join(",")));
        all.extend(with_field(place, &every[1..].join(",")));
        let digits = DIGITS.split(' ');
        all.extend(digits.flat_map(|digits| with_field(place, digits)));
    }
    all
}

/// Every range of each field and those with an end beside them, reversed ones too.
fn cron_ranges() -> Vec<Case> {
    let mut all = Vec::new();
    for (place, range) in CRON_FIELDS.iter().enumerate() {
        let numbers = (*range.start() - 1).max(0)..=*range.end() + 1;
        for first in numbers.clone() {
            for last in numbers.clone() {
                let [case, _] = with_field(place, &format!("{first}-{last}"));
                all.push(case);
            }
        }
    }
    all
}

fn rule(start: &str, parts: &str) -> Case {
    after_lines(format!("R {start} {parts}"))
}

/// The parts from the first day on that they hold, or from the first day.
fn started(parts: &str) -> Case {
    let found = generate::started(360, parts).map(after_lines);
    found.unwrap_or_else(|| rule("20000101T0600", parts))
}

/// Every interval, in *last* by the second occurrence.
fn intervals() -> Vec<Case> {
    let mut all = Vec::new();
    for interval in (0..=1_001).chain([9_999]) {
        for frequency in FREQUENCIES {
            let parts = format!("{frequency};COUNT=2;INTERVAL={interval}");
            all.push(rule("20260131T0600", &parts));
        }
    }
    all
}

/// `DIGITS` in every part that takes a number.
fn digits() -> Vec<Case> {
    let names = [
        "INTERVAL=",
        "COUNT=",
        "BYMONTHDAY=",
        "BYDAY=MO;BYSETPOS=",
        "BYMONTHDAY=-1,-",
        "BYDAY=MO,+",
        "BYMONTH=",
        "BYMONTH=6,",
    ];
    let mut all = Vec::new();
    for name in names {
        for digits in DIGITS.split(' ') {
            for (sign, after) in [("", ""), ("+", ""), ("-", ""), ("", "MO"), ("", ",1")] {
                let parts = format!("FREQ=MONTHLY;{name}{sign}{digits}{after}");
                all.push(rule("20260601T0600", &parts)); // a Monday and a first
            }
        }
    }
    all
}

/// Ordinals, month days and positions, with every sign and some zeros.
fn signed_numbers() -> Vec<Case> {
    let mut all = Vec::new();
    for number in (-33..=33).flat_map(signed_texts) {
        let every = WEEKDAYS.join(",");
        all.push(started(&format!("FREQ=MONTHLY;BYMONTHDAY={number}")));
        all.push(started(&format!("FREQ=DAILY;BYMONTHDAY={number}")));
        all.push(started(&format!(
            "FREQ=MONTHLY;BYDAY={every};BYSETPOS={number}"
        )));
        all.push(started(&format!(
            "FREQ=MONTHLY;BYMONTHDAY=1,2,3,-1,-2,-3;BYSETPOS={number};COUNT=3"
        )));
        all.push(started(&format!("FREQ=MONTHLY;BYMONTHDAY={number},-3,7")));
    }
    for number in (-7..=7).flat_map(signed_texts) {
        for weekday in WEEKDAYS {
            all.push(started(&format!("FREQ=MONTHLY;BYDAY={number}{weekday}")));
            all.push(started(&format!(
                "FREQ=MONTHLY;BYDAY=1SU,{number}{weekday};COUNT=4"
            )));
        }
    }
    all
}

/// Positions in a year and ordinals in its months, at both sides of their limits.
fn numbers_of_years() -> Vec<Case> {
    let mut all = Vec::new();
    for number in -33..=33 {
        all.push(started(&format!(
            "FREQ=YEARLY;BYDAY=SU,SA;BYSETPOS={number}"
        )));
        all.push(started(&format!(
            "FREQ=YEARLY;BYMONTH=2,11;BYMONTHDAY=1,28,29,30;BYSETPOS={number}"
        )));
        all.push(started(&format!("FREQ=YEARLY;BYMONTHDAY={number}")));
    }
    for number in -6..=6 {
        for weekday in WEEKDAYS {
            let entry = format!("{number}{weekday}");
            all.push(started(&format!("FREQ=YEARLY;BYMONTH=2,3;BYDAY={entry}")));
            all.push(started(&format!("FREQ=YEARLY;BYDAY={entry}")));
        }
    }
    all
}

/// Every month and the numbers beside them, with zeros before them and in lists, in every frequency.
fn months() -> Vec<Case> {
    let mut all = Vec::new();
    for frequency in FREQUENCIES {
        for month in (0..=14).chain([99, 9_999]) {
            let zeros = [1, 2, 4, 5].map(|width| format!("{month:0width$}"));
            let lists = ["12,{}", "{},1", "{},{}", "6,{},7"];
            let lists = lists.map(|list| list.replace("{}", &month.to_string()));
            for months in zeros.iter().chain(&lists) {
                all.push(started(&format!("{frequency};BYMONTH={months}")));
            }
        }
    }
    all
}

fn signed_texts(number: i64) -> Vec<String> {
    let signs: &[&str] = match number.signum() {
        0 => &["", "+", "-"],
        1 => &["", "+"],
        _ => &["-"],
    };
    let size = number.abs();
    let texts = |sign: &&str| [1, 2, 4, 5].map(|width| format!("{sign}{size:0width$}"));
    let mut all: Vec<String> = signs.iter().flat_map(texts).collect();
    all.dedup();
    all
}

/// COUNT at both ends of it, and about the number of occurrences that there are.
fn counts() -> Vec<Case> {
    let parts = [
        "FREQ=DAILY",
        "FREQ=DAILY;BYDAY=TH,SA,SU",
        "FREQ=DAILY;INTERVAL=3",
        "FREQ=DAILY;INTERVAL=999",
        "FREQ=WEEKLY",
        "FREQ=WEEKLY;INTERVAL=2;BYDAY=SU,MO,TH,SA",
        "FREQ=WEEKLY;INTERVAL=999",
        "FREQ=MONTHLY",
        "FREQ=MONTHLY;INTERVAL=12",
        "FREQ=MONTHLY;INTERVAL=999",
        "FREQ=MONTHLY;BYMONTHDAY=31",
        "FREQ=MONTHLY;BYDAY=TH,SA",
        "FREQ=MONTHLY;BYDAY=-1TH,1SA;BYSETPOS=-1",
        "FREQ=DAILY;BYMONTH=1,3,4,5,6,7,8,9,12",
        "FREQ=WEEKLY;BYMONTH=5,8,12",
        "FREQ=YEARLY",
        "FREQ=YEARLY;INTERVAL=9",
        "FREQ=YEARLY;BYDAY=SU,MO,TU,WE,TH,FR,SA",
        "FREQ=YEARLY;BYMONTH=2,8;BYMONTHDAY=29,-1",
        "FREQ=YEARLY;BYDAY=TH,SA;BYSETPOS=1,-1,29",
    ];
    let last_day = LAST_MINUTE / MINUTES_OF_A_DAY;
    let mut all = Vec::new();
    for parts in parts {
        for day in [0, last_day - 9_999, last_day - 9_998, last_day - 600] {
            all.extend(counts_from(day, parts));
        }
        all.extend(counts_on(last_day, parts));
    }
    all
}

/// From the first day on, at or after the given one, that the parts hold.
fn counts_from(day: i64, parts: &str) -> Vec<Case> {
    let all = (day..day + 100).map(|day| counts_on(day, parts));
    all.into_iter()
        .find(|all| !all.is_empty())
        .unwrap_or_default()
}

/// At six, where the last day's occurrence is not the last minute of all, and at that minute.
fn counts_on(day: i64, parts: &str) -> Vec<Case> {
    let times = [360, MINUTES_OF_A_DAY - 1];
    let starts = times.map(|time| written(day * MINUTES_OF_A_DAY + time));
    let lines = starts.map(|start| format!("R {start} {parts}"));
    lines.iter().flat_map(|line| with_counts(line)).collect()
}

fn with_counts(line: &str) -> Vec<Case> {
    let held = match read_line(&[Line::Zone(0)], line.as_bytes()) {
        Ok(Line::Rule(rule)) => occurrences(&rule).count() as i64,
        _ => return Vec::new(),
    };
    let counts = [1, 2, 31, held - 1, held, held + 1, 9_998, 9_999];
    let counts = counts.into_iter().filter(|count| *count < 10_000);
    let lines = counts.map(|count| format!("{line};COUNT={count}"));
    lines.map(after_lines).collect()
}

/// UNTIL about the start, at both ends of the window and within.
fn untils() -> Vec<Case> {
    let mut all = Vec::new();
    for start in [0, 1, 13_698_000, LAST_MINUTE - 1, LAST_MINUTE] {
        for distance in [-525_600, -1_440, -1, 0, 1, 1_440, 525_600] {
            let (start, until) = (written(start), written(start + distance));
            for frequency in FREQUENCIES {
                all.push(rule(&start, &format!("{frequency};UNTIL={until}")));
                all.push(rule(
                    &start,
                    &format!("UNTIL={until};INTERVAL=30;{frequency}"),
                ));
            }
        }
    }
    all
}

/// The written-down rules with their starts moved by up to forty days and by a minute.
fn moved_starts() -> Vec<Case> {
    let mut all = Vec::new();
    for line in RULES {
        let (start, parts) = line[2..].split_at(13);
        let minute = minute_of_text(start);
        let moves = (-40..=40).map(|days| days * MINUTES_OF_A_DAY);
        for moved in moves.chain([-1, 1]).map(|by| minute + by) {
            all.push(after_lines(format!("R {}{parts}", written(moved))));
        }
    }
    all
}

fn minute_of_text(text: &str) -> i64 {
    let number = |from: usize, to: usize| text[from..to].parse().unwrap_or(0);
    let [year, month, day] = [number(0, 4), number(4, 6), number(6, 8)];
    minute_of(year, month, day, number(9, 11), number(11, 13)).unwrap_or(0)
}
