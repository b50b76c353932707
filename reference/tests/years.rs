//! Rules of years and of months, by their dates in words; and what the suites ask of them.

use std::collections::BTreeSet;

use reference::answer_lines::answer_in;
use reference::entries::{compile, Loaded};
use reference::generate::lines_of_years;
use reference::hex::bytes_of;
use reference::local::written;
use reference::meaning::{of_sheet, Meaning};
use reference::{cases_lines, cases_plans, plan, sheet};

fn meaning(line: &str) -> Meaning {
    let lines = sheet::read(format!("Z +0000\n{line}\n").as_bytes());
    of_sheet(&lines.unwrap_or_else(|refusal| panic!("{refusal:?}: {line}")))
}

/// The first dates that a line holds, all at six.
fn dates(line: &str, first: usize) -> Vec<String> {
    let meaning = meaning(line);
    let times = meaning.minutes.rising_from(0).map(written).take(first);
    times
        .map(|time| time.strip_suffix("T0600").unwrap_or(&time).to_string())
        .collect()
}

fn goes(line: &str, wanted: &[&str]) {
    assert_eq!(dates(line, wanted.len()), wanted, "{line}");
}

fn same(one: &str, other: &str) {
    assert!(meaning(one) == meaning(other), "{one}\n{other}");
}

/// "29 February comes in leap years only."
#[test]
fn leap_days() {
    let years: Vec<String> = (0..25).map(|n| format!("{}0229", 2000 + 4 * n)).collect();
    for parts in [
        "FREQ=YEARLY",
        "FREQ=YEARLY;BYMONTH=2",
        "FREQ=YEARLY;BYMONTH=2;BYMONTHDAY=29",
        "FREQ=YEARLY;INTERVAL=2",
        "FREQ=YEARLY;INTERVAL=4",
        "FREQ=MONTHLY;BYMONTH=2",
        "FREQ=DAILY;BYMONTH=2;BYMONTHDAY=29",
    ] {
        assert_eq!(dates(&format!("R 20000229T0600 {parts}"), 99), years);
    }
    let third = ["20000229", "20120229", "20240229", "20360229"];
    goes("R 20000229T0600 FREQ=YEARLY;INTERVAL=3", &third);
    let tuesdays = "R 20000229T0600 FREQ=YEARLY;BYMONTH=2;BYDAY=TU;BYMONTHDAY=29";
    let all = ["20000229", "20280229", "20560229", "20840229"];
    assert_eq!(dates(tuesdays, 9), all);
    assert_eq!(dates(&format!("{tuesdays};INTERVAL=28"), 9), all);
    assert_eq!(dates(&format!("{tuesdays};INTERVAL=999"), 9), all[..1]);
    let fifth = "R 20000229T0600 FREQ=YEARLY;BYMONTH=2;BYDAY=5TU";
    assert_eq!(dates(fifth, 9), all);
    let last = ["20000229", "20010228", "20020228", "20030228", "20040229"];
    goes("R 20000229T0600 FREQ=YEARLY;BYMONTH=2;BYMONTHDAY=-1", &last);
    goes("R 20960229T0600 FREQ=YEARLY", &["20960229"]);
}

/// "with neither, the start's day in the BYMONTH months, or in the start's month".
#[test]
fn the_start_gives_day_and_month() {
    goes(
        "R 20260515T0600 FREQ=YEARLY",
        &["20260515", "20270515", "20280515"],
    );
    goes(
        "R 20260131T0600 FREQ=YEARLY;BYMONTH=4,3,2,1",
        &["20260131", "20260331", "20270131", "20270331"],
    );
    goes(
        "R 20261231T0600 FREQ=YEARLY;INTERVAL=50;BYMONTH=11,12,1",
        &["20261231", "20760131", "20761231"],
    );
}

/// "BYMONTHDAY and BYDAY (both must allow a day, if both are given) pick days in the months of BYMONTH, or in all months".
#[test]
fn days_of_the_year() {
    goes(
        "R 20260213T0600 FREQ=YEARLY;BYDAY=FR;BYMONTHDAY=13",
        &["20260213", "20260313", "20261113", "20270813"],
    );
    goes(
        "R 20260213T0600 FREQ=YEARLY;BYDAY=FR;BYMONTHDAY=13;BYMONTH=2,8",
        &["20260213", "20270813", "20320213"],
    );
    goes(
        "R 20260131T0600 FREQ=YEARLY;BYMONTHDAY=31;INTERVAL=2",
        &[
            "20260131", "20260331", "20260531", "20260731", "20260831", "20261031", "20261231",
            "20280131",
        ],
    );
}

/// "ordinals are allowed, count within a month".
#[test]
fn ordinals_of_a_month() {
    goes(
        "R 20260607T0600 FREQ=YEARLY;BYMONTH=6,9;BYDAY=1SU",
        &["20260607", "20260906", "20270606", "20270905"],
    );
    goes(
        "R 20260329T0600 FREQ=YEARLY;BYMONTH=3,10;BYDAY=-1SU",
        &["20260329", "20261025", "20270328", "20271031"],
    );
    goes(
        "R 20260105T0600 FREQ=YEARLY;BYMONTH=1;BYDAY=1MO,WE,-1FR",
        &[
            "20260105", "20260107", "20260114", "20260121", "20260128", "20260130", "20270104",
        ],
    );
}

/// "it picks from the year's set".
#[test]
fn positions_in_a_year() {
    goes(
        "R 20260102T0600 FREQ=YEARLY;BYDAY=FR;BYSETPOS=1,-1",
        &["20260102", "20261225", "20270101", "20271231"],
    );
    goes(
        "R 20260131T0600 FREQ=YEARLY;BYDAY=SA;BYSETPOS=5",
        &["20260131", "20270130", "20280129", "20290203"],
    );
    goes(
        "R 20261201T0600 FREQ=YEARLY;BYDAY=SU,MO,TU,WE,TH,FR,SA;BYSETPOS=-31",
        &["20261201", "20271201", "20281201"],
    );
    goes(
        "R 20260606T0600 FREQ=YEARLY;BYMONTH=6,7,8;BYDAY=SA;BYSETPOS=1,5,-1",
        &[
            "20260606", "20260704", "20260829", "20270605", "20270703", "20270828",
        ],
    );
    // the 29th of twelve months is there in leap years alone
    goes(
        "R 20001229T0600 FREQ=YEARLY;BYMONTHDAY=29;BYSETPOS=12",
        &["20001229", "20041229", "20081229"],
    );
    goes(
        "R 20000229T0600 FREQ=YEARLY;BYMONTHDAY=29;BYSETPOS=2",
        &["20000229", "20010329", "20020329", "20030329", "20040229"],
    );
}

/// "For the other frequencies BYMONTH only limits": a week's days are dropped one by one, and periods go on.
#[test]
fn months_limit() {
    goes(
        "R 20260131T0600 FREQ=WEEKLY;BYDAY=SA,SU;BYMONTH=1",
        &["20260131", "20270102", "20270103", "20270109"],
    );
    goes(
        "R 20000101T0600 FREQ=WEEKLY;INTERVAL=2;BYDAY=SA,SU,MO;BYMONTH=1",
        &[
            "20000101", "20000102", "20000110", "20000115", "20000116", "20000124", "20000129",
            "20000130", "20010108", "20010113", "20010114",
        ],
    );
    goes(
        "R 20260131T0600 FREQ=DAILY;INTERVAL=5;BYMONTH=1,2",
        &[
            "20260131", "20260205", "20260210", "20260215", "20260220", "20260225", "20270101",
        ],
    );
    goes(
        "R 20260130T0600 FREQ=MONTHLY;INTERVAL=2;BYMONTH=1,2,3;BYDAY=MO,TU,WE,TH,FR;BYSETPOS=-1",
        &["20260130", "20260331", "20270129", "20270331"],
    );
    goes(
        "R 20260131T0600 FREQ=MONTHLY;BYMONTH=1,2,3;COUNT=3",
        &["20260131", "20260331", "20270131"],
    );
}

/// The same days by rules of other frequencies.
#[test]
fn other_frequencies_say_the_same() {
    let every_day = "BYDAY=SU,MO,TU,WE,TH,FR,SA";
    for (one, other) in [
        ("FREQ=YEARLY", "FREQ=MONTHLY;INTERVAL=12"),
        ("FREQ=YEARLY;INTERVAL=3", "FREQ=MONTHLY;INTERVAL=36"),
        ("FREQ=YEARLY;BYMONTHDAY=31", "FREQ=MONTHLY;BYMONTHDAY=31"),
        (
            "FREQ=YEARLY;BYMONTHDAY=-1,15",
            "FREQ=MONTHLY;BYMONTHDAY=-1,15",
        ),
        ("FREQ=YEARLY;BYDAY=SA", "FREQ=WEEKLY"),
        ("FREQ=YEARLY;BYDAY=SA,TU", "FREQ=WEEKLY;BYDAY=TU,SA"),
        (
            "FREQ=YEARLY;BYMONTH=1,5;BYDAY=SA",
            "FREQ=WEEKLY;BYMONTH=1,5",
        ),
        (
            "FREQ=YEARLY;BYMONTH=1,8;BYDAY=5SA,-2TU",
            "FREQ=MONTHLY;BYMONTH=8,1;BYDAY=-2TU,5SA",
        ),
        ("FREQ=YEARLY;BYMONTH=1,2;EVERY", "FREQ=DAILY;BYMONTH=2,1"),
        ("FREQ=YEARLY;EVERY", "FREQ=DAILY"),
        (
            "FREQ=YEARLY;BYMONTH=1;BYDAY=SA,SU;BYSETPOS=-1",
            "FREQ=MONTHLY;BYMONTH=1;BYDAY=SA,SU;BYSETPOS=-1",
        ),
        (
            "FREQ=YEARLY;BYMONTH=1,2,3,4,5,6,7,8,9,10,11,12",
            "FREQ=MONTHLY",
        ),
        (
            "FREQ=YEARLY;EVERY;BYSETPOS=31",
            "FREQ=YEARLY;BYMONTH=1;BYMONTHDAY=31",
        ),
    ] {
        let line = |parts: &str| format!("R 20260131T0600 {}", parts.replace("EVERY", every_day));
        same(&line(one), &line(other));
    }
}

/// "Every compiled plan is taken", and means what the line means.
#[test]
fn plans_mean_the_same() {
    for line in lines_of_years() {
        let text = format!("Z +0000\n{line}\n");
        let plan = compile(text.as_bytes(), usize::MAX).1;
        assert_eq!(Loaded::new(plan.as_bytes()).check().number, 0, "{line}");
        let taken = plan::read(plan.as_bytes()).unwrap_or_default();
        assert!(plan::of_plan(&taken) == meaning(&line), "{line}");
    }
}

fn is_taken(plan: &str) -> bool {
    Loaded::new(plan.as_bytes()).check().number == 0
}

/// The plans of the load checks that the suite `plans` always asks.
fn checked_plans() -> Vec<String> {
    let asked = cases_plans::requests(1, 0);
    let words = asked.filter_map(|request| request.strip_prefix("check ").map(bytes_of));
    words
        .filter_map(|bytes| String::from_utf8(bytes).ok())
        .collect()
}

/// Of each frequency each month's bit in a plan that is taken, and each other bit in one that is refused for it alone.
#[test]
fn the_suite_asks_month_masks() {
    let mut seen = BTreeSet::new();
    for plan in checked_plans() {
        let lines: Vec<&str> = plan.lines().collect();
        let rule = match lines[..] {
            [_, rule, _] if rule.len() == 82 && rule.starts_with("04") => rule,
            _ => continue,
        };
        let mask = u64::from_str_radix(&rule[78..], 16).unwrap_or(0);
        for bit in (0..16).filter(|bit| mask >> bit & 1 == 1) {
            let without = format!("{}{:04X}", &rule[..78], mask ^ 1 << bit);
            let alone = is_taken(&plan) || is_taken(&plan.replace(rule, &without));
            if alone {
                seen.insert((rule[2..4].to_string(), bit, is_taken(&plan)));
            }
        }
    }
    for frequency in ["01", "02", "03", "04"] {
        for bit in 0..16 {
            let case = (frequency.to_string(), bit, (1..=12).contains(&bit));
            assert!(seen.contains(&case), "{case:?}");
        }
    }
}

/// Rule frames of 39 bytes, refused for what they lack, at the line where they stand.
#[test]
fn the_suite_asks_frames_without_a_month_mask() {
    let mut seen = BTreeSet::new();
    for plan in checked_plans() {
        let short = plan.lines().zip(1..).find(|(line, _)| line.len() == 78);
        if let Some((line, number)) = short.filter(|(line, _)| line.starts_with("04")) {
            let longer = plan.replacen(line, &format!("{line}0000"), 1);
            if is_taken(&longer) {
                assert_eq!(Loaded::new(plan.as_bytes()).check().line, number);
                seen.insert(line[2..4].to_string());
            }
        }
    }
    let every = ["01", "02", "03", "04"].map(str::to_string);
    assert_eq!(seen, BTreeSet::from(every));
}

/// YEARLY with every set of the other parts that go together: INTERVAL or not; COUNT, UNTIL or neither; BYMONTH or not; BYDAY,
/// BYMONTHDAY, both or neither, and BYSETPOS or not where there is one.
#[test]
fn the_suite_asks_all_parts_of_years() {
    let mut seen = BTreeSet::new();
    for case in cases_lines::cases(1, 0) {
        let line = String::from_utf8_lossy(&case.line).into_owned();
        if line.contains("FREQ=YEARLY") && answer_in(&case.context, &case.line).is_ok() {
            let parts = line.split(' ').nth(2).unwrap_or_default().split(';');
            let names = parts.filter_map(|part| part.split('=').next());
            seen.insert(names.map(str::to_string).collect::<BTreeSet<_>>());
        }
    }
    assert_eq!(seen.len(), 2 * 3 * 2 * (1 + 3 * 2));
}
