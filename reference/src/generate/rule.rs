//! Random R lines whose start is an occurrence.

use crate::local::{written, FIRST_MINUTE, LAST_MINUTE, MINUTES_OF_A_DAY};
use crate::meaning::rule::occurrences;
use crate::random::Random;
use crate::sheet::line::{Frequency, Rule, WeekdayEntry};

/// An R line: the first occurrence from a random minute on becomes the start.
pub fn rule_line(random: &mut Random) -> String {
    line_of(rule_without_end, random)
}

/// An R line with BYSETPOS anywhere in a set of many days.
pub fn large_set_rule_line(random: &mut Random) -> String {
    line_of(large_set_rule, random)
}

/// An R line for each position from 1 to 31 and from -1 to -31: the position alone, in months of all their days.
pub fn all_positions() -> Vec<String> {
    let line = |(day, position): (i64, i64)| {
        format!("R 200001{day:02}T0600 FREQ=MONTHLY;BYDAY=SU,MO,TU,WE,TH,FR,SA;BYSETPOS={position}")
    };
    let places = (1..=31).flat_map(|n| [(n, n), (32 - n, -n)]);
    places.map(line).collect()
}

/// The same in years of all their Saturdays, of which the first is 2000-01-01 and the 53rd 2000-12-30.
pub fn all_positions_of_years() -> Vec<String> {
    let line = |(week, position): (i64, i64)| {
        let start = written(7 * MINUTES_OF_A_DAY * week + 360);
        format!("R {start} FREQ=YEARLY;BYDAY=SA;BYSETPOS={position}")
    };
    let places = (1..=31).flat_map(|n| [(n - 1, n), (53 - n, -n)]);
    places.map(line).collect()
}

fn line_of(some_rule: fn(&mut Random) -> Rule, random: &mut Random) -> String {
    loop {
        let mut rule = some_rule(random);
        let first = occurrences(&rule).next();
        if let Some(start) = first {
            rule.start = start;
            set_end(&mut rule, random);
            return format!("R {} {}", written(start), parts_text(&rule, random));
        }
    }
}

/// A month's set of 8 to 31 days or a year's of 24 to 366, by weekdays or month days, at times in some months alone; and
/// positions of any size.
fn large_set_rule(random: &mut Random) -> Rule {
    let yearly = one_in(2, random);
    let by_weekdays = one_in(2, random);
    let plain = |weekday| WeekdayEntry {
        ordinal: None,
        weekday,
    };
    let weekdays = random.between(if yearly { 1 } else { 2 }, 7);
    let month_days = random.between(if yearly { 2 } else { 8 }, 20); // so that the line is not too long
    Rule {
        start: random.between(FIRST_MINUTE, LAST_MINUTE),
        frequency: if yearly {
            Frequency::Yearly
        } else {
            Frequency::Monthly
        },
        interval: random.between(1, 3),
        count: None,
        until: None,
        by_day: by_weekdays.then(|| (7 - weekdays..7).map(plain).collect()),
        by_month_day: (!by_weekdays).then(|| (1..=month_days).collect()),
        by_set_pos: Some(
            (0..random.between(1, 4))
                .map(|_| signed_up_to(31, random))
                .collect(),
        ),
        by_month: one_in(3, random).then(|| month_list(random)),
    }
}

fn rule_without_end(random: &mut Random) -> Rule {
    let frequencies = [
        Frequency::Daily,
        Frequency::Weekly,
        Frequency::Monthly,
        Frequency::Yearly,
    ];
    let frequency = frequencies[random.between(0, 3) as usize];
    let monthly = frequency == Frequency::Monthly;
    let yearly = frequency == Frequency::Yearly;
    let by_month = one_in(3, random).then(|| month_list(random));
    let ordinals_allowed = monthly || yearly && by_month.is_some();
    let by_day = one_in(2, random).then(|| weekday_list(ordinals_allowed, random));
    let by_month_day =
        (frequency != Frequency::Weekly && one_in(3, random)).then(|| month_day_list(random));
    let positions_allowed = (monthly || yearly) && (by_day.is_some() || by_month_day.is_some());
    Rule {
        start: random.between(FIRST_MINUTE, LAST_MINUTE),
        frequency,
        interval: interval(random),
        count: None,
        until: None,
        by_day,
        by_month_day,
        by_set_pos: (positions_allowed && one_in(2, random)).then(|| month_day_list(random)),
        by_month,
    }
}

fn one_in(many: i64, random: &mut Random) -> bool {
    random.between(1, many) == 1
}

fn interval(random: &mut Random) -> i64 {
    match random.between(0, 5) {
        0 => random.between(1, 999),
        1 | 2 => random.between(2, 5),
        _ => 1,
    }
}

fn weekday_list(ordinals_allowed: bool, random: &mut Random) -> Vec<WeekdayEntry> {
    (0..random.between(1, 5))
        .map(|_| WeekdayEntry {
            ordinal: (ordinals_allowed && one_in(2, random)).then(|| signed_up_to(5, random)),
            weekday: random.between(0, 6),
        })
        .collect()
}

/// Month days or positions; mostly low ones, which exist more often.
fn month_day_list(random: &mut Random) -> Vec<i64> {
    (0..random.between(1, 4))
        .map(|_| match random.between(0, 2) {
            0 => signed_up_to(31, random),
            _ => signed_up_to(4, random),
        })
        .collect()
}

/// Some months, February more often than others.
fn month_list(random: &mut Random) -> Vec<i64> {
    (0..random.between(1, 4))
        .map(|_| match random.between(0, 5) {
            0 => 2,
            _ => random.between(1, 12),
        })
        .collect()
}

fn signed_up_to(highest: i64, random: &mut Random) -> i64 {
    let size = random.between(1, highest);
    if one_in(2, random) {
        size
    } else {
        -size
    }
}

/// COUNT, UNTIL or neither.
fn set_end(rule: &mut Rule, random: &mut Random) {
    match random.between(0, 5) {
        0 => rule.count = Some(random.between(1, 9999)),
        1 => rule.count = Some(random.between(1, 20)),
        2 => rule.until = Some(random.between(rule.start, LAST_MINUTE)),
        3 => rule.until = Some((rule.start + random.between(0, 100_000)).min(LAST_MINUTE)),
        _ => {}
    }
}

/// "in any order"
fn parts_text(rule: &Rule, random: &mut Random) -> String {
    let frequency = match rule.frequency {
        Frequency::Daily => "DAILY",
        Frequency::Weekly => "WEEKLY",
        Frequency::Monthly => "MONTHLY",
        Frequency::Yearly => "YEARLY",
    };
    let mut parts = vec![format!("FREQ={frequency}")];
    if rule.interval != 1 || one_in(2, random) {
        parts.push(format!("INTERVAL={}", rule.interval));
    }
    parts.extend(rule.count.map(|count| format!("COUNT={count}")));
    parts.extend(rule.until.map(|until| format!("UNTIL={}", written(until))));
    if let Some(entries) = &rule.by_day {
        let words: Vec<String> = entries.iter().map(|e| entry_text(e, random)).collect();
        parts.push(format!("BYDAY={}", words.join(",")));
    }
    for (name, list) in [
        ("BYMONTHDAY", &rule.by_month_day),
        ("BYSETPOS", &rule.by_set_pos),
    ] {
        if let Some(numbers) = list {
            let words: Vec<String> = numbers.iter().map(|&n| signed_text(n, random)).collect();
            parts.push(format!("{name}={}", words.join(",")));
        }
    }
    if let Some(months) = &rule.by_month {
        let words: Vec<String> = months.iter().map(|&n| plain_text(n, random)).collect();
        parts.push(format!("BYMONTH={}", words.join(",")));
    }
    shuffle(&mut parts, random);
    parts.join(";")
}

fn entry_text(entry: &WeekdayEntry, random: &mut Random) -> String {
    let words = ["SU", "MO", "TU", "WE", "TH", "FR", "SA"];
    let ordinal = entry.ordinal.map(|number| signed_text(number, random));
    ordinal.unwrap_or_default() + words[entry.weekday as usize]
}

/// "A sign [..] is `+` or `-` or absent"; "leading zeros are allowed".
fn signed_text(number: i64, random: &mut Random) -> String {
    match random.between(0, 5) {
        0 => format!("{number:+}"),
        1 => format!("{number:+05}"),
        2 => format!("{number:02}"),
        _ => number.to_string(),
    }
}

/// A number without a sign.
fn plain_text(number: i64, random: &mut Random) -> String {
    match random.between(0, 5) {
        0 => format!("{number:04}"),
        1 => format!("{number:02}"),
        _ => number.to_string(),
    }
}

fn shuffle(parts: &mut [String], random: &mut Random) {
    for place in 1..parts.len() {
        let other = random.between(0, place as i64) as usize;
        parts.swap(place, other);
    }
}
