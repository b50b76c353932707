//! The whole example, and the marked cases (h) to (l).

use reference::dates::{date_of_day, weekday};
use reference::entries::{compile, Compiled, Loaded};
use reference::local::{days, minute_at, minute_of, written, LAST_MINUTE};
use reference::meaning::{of_sheet, Meaning};
use reference::plan::{frame::Frame, of_plan, read as read_plan, Plan};
use reference::sheet;

const SHEET: &str = "\
Z +0100
T 20260329T0100 +0200
T 20261025T0100 +0100
C 30 2 * * *
";

const PLAN: &str = "\
01003C
0200D2963C0078
0200D7337C003C
03000000004000000000000004FFFFFFFE1FFE7F00
FF04
";

fn meaning(text: &str) -> Meaning {
    of_sheet(&sheet::read(text.as_bytes()).expect("the sheet is taken"))
}

fn plan_of(text: &str) -> Plan {
    let (_, plan) = compile(text.as_bytes(), usize::MAX);
    read_plan(plan.as_bytes()).expect("the plan is taken")
}

/// The held times of a sheet with this one line, as written.
fn times(line: &str) -> Vec<String> {
    let meaning = meaning(&format!("Z +0000\n{line}\n"));
    meaning.minutes.rising_from(0).map(written).collect()
}

#[test]
fn the_whole_example_compiles() {
    let length = PLAN.len();
    let taken = Compiled {
        length: length as u64,
        ..Compiled::default()
    };
    assert_eq!(compile(SHEET.as_bytes(), length), (taken, PLAN.to_string()));
    assert_eq!(compile(SHEET.as_bytes(), 99_999), (taken, PLAN.to_string()));
    let too_long = Compiled {
        number: 9,
        ..Compiled::default()
    };
    assert_eq!(
        compile(SHEET.as_bytes(), length - 1),
        (too_long, String::new())
    );
}

#[test]
fn the_example_loads_and_means_its_sheet() {
    let loaded = Loaded::new(PLAN.as_bytes());
    assert_eq!((loaded.check().number, loaded.check().line), (0, 0));
    assert!(of_plan(&plan_of(SHEET)) == meaning(SHEET));
    let held: Vec<i64> = meaning(SHEET).minutes.rising_from(0).collect();
    let wanted: Vec<i64> = days().map(|day| minute_at(day, 150)).collect();
    assert_eq!(held, wanted);
}

/// (h) "in the example, 2026-03-29 02:30 is instant 13,801,050": missing, so it lands after 03:00.
#[test]
fn h_the_missing_half_past_two() {
    let loaded = Loaded::new(PLAN.as_bytes());
    let minute = minute_of(2026, 3, 29, 2, 30).expect("a local minute");
    assert_eq!(loaded.instant_of_local(minute).instant, 13_801_050);
    assert_eq!(loaded.next(13_801_049).instant, 13_801_050);
    assert_eq!(loaded.previous(13_801_051).instant, 13_801_050);
    let three = minute_of(2026, 3, 29, 3, 0).expect("a local minute");
    assert_eq!(loaded.instant_of_local(three).instant, 13_801_020);
}

/// (i) "2026-10-25 02:30 is 14,103,390, once": the second pass an hour later is not held.
#[test]
fn i_the_doubled_half_past_two() {
    let loaded = Loaded::new(PLAN.as_bytes());
    let minute = minute_of(2026, 10, 25, 2, 30).expect("a local minute");
    assert_eq!(loaded.instant_of_local(minute).instant, 14_103_390);
    assert_eq!(loaded.next(14_103_389).instant, 14_103_390);
    assert_eq!(loaded.next(14_103_390).instant, 14_103_390 + 1_500);
    assert_eq!(loaded.previous(14_103_390).instant, 14_103_390 - 1_440);
}

/// (j) "is 31 January, March, May, last 13,892,040".
#[test]
fn j_three_months_with_a_31st() {
    let line = "R 20260131T0600 FREQ=MONTHLY;COUNT=3";
    assert_eq!(
        times(line),
        ["20260131T0600", "20260331T0600", "20260531T0600"]
    );
    let plan = plan_of(&format!("Z +0000\n{line}\n"));
    let rule = match plan.frames.get(1) {
        Some(Frame::Rule(rule)) => rule,
        _ => panic!("the second frame is the rule"),
    };
    assert_eq!(rule.last, 13_892_040);
    assert_eq!(minute_of(2026, 5, 31, 6, 0), Some(rule.last));
    assert_eq!((rule.month_days, rule.plain_weekdays), (1 << 31, 0));
}

/// (k) "goes on to 27 February and 31 March".
#[test]
fn k_the_last_working_day() {
    let line = "R 20260130T0600 FREQ=MONTHLY;BYDAY=MO,TU,WE,TH,FR;BYSETPOS=-1";
    let held = times(line);
    let first = ["20260130T0600", "20260227T0600", "20260331T0600"];
    assert_eq!(held[..3], first);
    assert_eq!(held.last().map(String::as_str), Some("20991231T0600"));
}

/// (l) "`0 0 13 * 5` holds every 13th and every Friday."
#[test]
fn l_every_13th_and_every_friday() {
    let meaning = meaning("Z +0000\nC 0 0 13 * 5\n");
    let held: Vec<i64> = meaning.minutes.rising_from(0).collect();
    let is_wanted =
        |day: &i64| weekday(*day) == 5 || date_of_day(*day).map_or(false, |date| date.day == 13);
    let wanted: Vec<i64> = days()
        .filter(is_wanted)
        .map(|day| minute_at(day, 0))
        .collect();
    assert_eq!(held, wanted);
}

/// "`0 0 30 2 *` is taken and holds nothing."
#[test]
fn a_cron_line_that_holds_nothing() {
    assert!(times("C 0 0 30 2 *").is_empty());
    let plan = compile(b"Z +0000\nC 0 0 30 2 *\n", usize::MAX).1;
    let loaded = Loaded::new(plan.as_bytes());
    for asked in [i64::MIN, 0, i64::MAX] {
        assert_eq!(loaded.next(asked).number, 11);
        assert_eq!(loaded.previous(asked).number, 11);
    }
}

/// "`1-31` is restricted", so either day field suffices and every day is held.
#[test]
fn a_full_list_is_restricted() {
    assert_eq!(times("C 0 0 1-31 * 1").len(), days().count());
    assert_eq!(times("C 0 0 1 * 0-6").len(), days().count());
    assert_eq!(times("C 0 0 * * 1"), times("R 20000103T0000 FREQ=WEEKLY"));
}

/// "X does not give a COUNT back", "wherever they stand".
#[test]
fn an_exception_does_not_give_a_count_back() {
    let text = "Z +0000\nX 20260331T0600\nR 20260131T0600 FREQ=MONTHLY;COUNT=3\n";
    let held: Vec<String> = meaning(text).minutes.rising_from(0).map(written).collect();
    assert_eq!(held, ["20260131T0600", "20260531T0600"]);
}

/// X takes local minutes away before they become instants.
#[test]
fn an_excepted_minute_leaves_the_instant_of_a_missing_one() {
    let zone = "Z +0100\nT 20260329T0100 +0200\n";
    let lines = "D 20260329T0230\nD 20260329T0330\nX 20260329T0330\n";
    assert_eq!(meaning(&format!("{zone}{lines}")).instants(), [13_801_050]);
    let both = "D 20260329T0230\nD 20260329T0330\n";
    assert_eq!(meaning(&format!("{zone}{both}")).instants(), [13_801_050]);
}

#[test]
fn searches_at_the_ends_of_the_numbers() {
    let plan = compile(b"Z +1400\nD 20000101T0000\nD 20991231T2359\n", 999).1;
    let loaded = Loaded::new(plan.as_bytes());
    assert_eq!(loaded.next(i64::MIN).instant, -840);
    assert_eq!(loaded.next(-841).instant, -840);
    assert_eq!(loaded.next(-840).instant, LAST_MINUTE - 840);
    assert_eq!(loaded.next(i64::MAX).number, 11);
    assert_eq!(loaded.previous(i64::MAX).instant, LAST_MINUTE - 840);
    assert_eq!(loaded.previous(-840).number, 11);
    assert_eq!(loaded.previous(i64::MIN).number, 11);
    let plan = compile(b"Z -1200\nD 20991231T2359\n", 999).1;
    let loaded = Loaded::new(plan.as_bytes());
    assert_eq!(loaded.next(52_596_718).instant, 52_596_719);
    assert_eq!(loaded.next(52_596_719).number, 11);
    assert_eq!(loaded.previous(52_596_720).instant, 52_596_719);
}

/// "A local minute mapped by a plan's zone: 10, then 5."
#[test]
fn a_local_minute_out_of_range() {
    let loaded = Loaded::new(PLAN.as_bytes());
    for minute in [-1, LAST_MINUTE + 1, i64::MIN, i64::MAX] {
        let found = loaded.instant_of_local(minute);
        assert_eq!((found.number, found.line, found.instant), (5, 0, 0));
    }
    assert_eq!(Loaded::new(b"").instant_of_local(-1).number, 10);
}

/// "The offset at an instant is that of the last transition at or before it, else Z's."
#[test]
fn the_offset_at_an_instant() {
    let loaded = Loaded::new(PLAN.as_bytes());
    let spring = minute_of(2026, 3, 29, 1, 0).expect("a minute of the UTC clock");
    let autumn = minute_of(2026, 10, 25, 1, 0).expect("a minute of the UTC clock");
    let known = [
        (i64::MIN, 60),
        (spring - 1, 60),
        (spring, 120),
        (autumn - 1, 120),
        (autumn, 60),
        (i64::MAX, 60),
    ];
    for (instant, offset) in known {
        let found = loaded.offset_at(instant);
        assert_eq!((found.number, found.line, found.instant), (0, 0, offset));
    }
    let refused = Loaded::new(b"").offset_at(spring);
    assert_eq!((refused.number, refused.line, refused.instant), (10, 1, 0));
}
