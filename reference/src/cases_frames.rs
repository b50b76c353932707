//! The suite `frames`: the local minutes that the cron, rule, extra and excepted frames of generated sheets hold.

use crate::entries::compile;
use crate::generate::{
    all_cron_lines, all_positions, all_positions_of_years, cron_line, eight_cron_lines,
    large_set_rule_line, lines_of_years, rule_line, sheet, started, TWO_YEARS,
};
use crate::local::{minute_of, LAST_MINUTE, MINUTES_OF_A_DAY};
use crate::random::Random;

/// Rounds for `--times 1`: a rule and a cron line over the whole century, and a sheet from two places.
const ROUNDS: u64 = 300;

/// Minutes that are asked for in a row; those of a rule are at most one a day.
const MANY: i64 = 36_525;
const SOME: i64 = 300;

/// "COUNT= 1 to 9999".
const MOST_COUNT: i64 = 9_999;

/// Lines that hold a minute at an end of the window, or would if it were not excepted or past *last*.
const AT_THE_ENDS: [&str; 28] = [
    "D 20000101T0000\nD 20991231T2359",
    "D 20000101T0001\nD 20991231T2358",
    "D 20000101T0000\nD 20991231T2359\nX 20000101T0000\nX 20991231T2359",
    "C * * * * *",
    "C * * * * *\nX 20000101T0000\nX 20991231T2359",
    "C 0 0 1 1 *",
    "C 59 23 31 12 *",
    "C 0,59 0,23 * * 4,6",
    "C 0,59 0,23 * 6 4,6",
    "C 0,59 0,23 1 6 4,6",
    "R 20000101T0000 FREQ=DAILY",
    "R 20000101T2359 FREQ=DAILY",
    "R 20000101T0000 FREQ=DAILY;UNTIL=20000101T0000",
    "R 20000101T2359 FREQ=DAILY;UNTIL=20991231T2358",
    "R 20000101T0000 FREQ=WEEKLY;BYDAY=SA,TH",
    "R 20000101T2359 FREQ=WEEKLY;BYDAY=SA,TH",
    "R 20000101T0000 FREQ=MONTHLY;BYMONTHDAY=1,-1",
    "R 20000131T2359 FREQ=MONTHLY",
    "R 20991231T2359 FREQ=DAILY",
    "R 20991231T2359 FREQ=WEEKLY;INTERVAL=999",
    "R 20991231T2359 FREQ=MONTHLY;BYDAY=-1TH",
    "R 20991231T0000 FREQ=MONTHLY;BYDAY=TH;BYSETPOS=5",
    "R 20000101T0000 FREQ=YEARLY;BYMONTH=1,12;BYMONTHDAY=1,-1",
    "R 20000101T2359 FREQ=YEARLY;BYDAY=SA,TH;BYSETPOS=1,-1",
    "R 20000101T0000 FREQ=WEEKLY;BYDAY=SA,TH;BYMONTH=1,12",
    "R 20991231T2359 FREQ=YEARLY;INTERVAL=999",
    "R 20991231T2359 FREQ=DAILY;BYMONTH=12",
    "R 20000101T0000 FREQ=DAILY;BYMONTH=1;UNTIL=20000101T0000",
];

/// Parts of rules that hold every day, and most days.
const MANY_DAYS: [&str; 8] = [
    "FREQ=DAILY",
    "FREQ=WEEKLY;BYDAY=SU,MO,TU,WE,TH,FR,SA",
    "FREQ=MONTHLY;BYDAY=SU,MO,TU,WE,TH,FR,SA",
    "FREQ=MONTHLY;BYMONTHDAY=-1,-2,-3,-4,-5,-6,-7,-8,-9,-10,-11,-12",
    "FREQ=DAILY;BYDAY=TH,SA,SU,MO",
    "FREQ=YEARLY;BYDAY=SU,MO,TU,WE,TH,FR,SA",
    "FREQ=YEARLY;BYDAY=TH,SA,SU,MO,FR;BYMONTH=1,2,3,5,8,12",
    "FREQ=DAILY;BYMONTH=1,3,4,6,8,9,11,12",
];

pub fn requests(seed: u64, times: u64) -> Box<dyn Iterator<Item = String>> {
    let mut fixed: Vec<String> = AT_THE_ENDS.into_iter().flat_map(at_the_ends).collect();
    let positions = [all_positions(), all_positions_of_years()].concat();
    fixed.extend(positions.iter().flat_map(|line| whole(line)));
    fixed.extend(lines_of_years().iter().flat_map(|line| whole(line)));
    fixed.extend(MANY_DAYS.into_iter().flat_map(counts));
    fixed.extend(eight_cron_lines().iter().flat_map(|line| century(line)));
    fixed.extend(all_cron_lines().iter().flat_map(|line| two_years(line)));
    let mut random = Random::new(seed);
    let rounds = times.saturating_mul(ROUNDS);
    let rounds = (0..rounds).flat_map(move |_| round(&mut random));
    Box::new(fixed.into_iter().chain(rounds))
}

/// From the first minutes and days of the window and from the last ones, up and down.
fn at_the_ends(lines: &str) -> Vec<String> {
    let frames = frames_of(&format!("Z +0000\n{lines}\n"));
    let near = [0, 1, MINUTES_OF_A_DAY - 1, MINUTES_OF_A_DAY];
    let minutes = near.into_iter().chain(near.map(|m| LAST_MINUTE - m));
    let asked = minutes.flat_map(|from| [format!("rising {from}"), format!("falling {from}")]);
    let past = [format!("rising {}", LAST_MINUTE + 1)];
    asked
        .chain(past)
        .map(|asked| format!("{asked} {SOME}{frames}"))
        .collect()
}

/// All minutes of a rule line, rising, and some falling.
fn whole(line: &str) -> Vec<String> {
    let rule = frames_of(&format!("Z +0000\n{line}\n"));
    vec![
        format!("rising 0 {MANY}{rule}"),
        format!("falling {LAST_MINUTE} {SOME}{rule}"),
    ]
}

/// All minutes of a cron line of midnight, rising and falling.
fn century(line: &str) -> [String; 2] {
    let cron = frames_of(&format!("Z +0000\n{line}\n"));
    [
        format!("rising 0 {MANY}{cron}"),
        format!("falling {LAST_MINUTE} {MANY}{cron}"),
    ]
}

/// As many minutes of such a line as 2027 and 2028 have days, from either end of these years.
fn two_years(line: &str) -> [String; 2] {
    let cron = frames_of(&format!("Z +0000\n{line}\n"));
    let minute = |year, month, day| minute_of(year, month, day, 0, 0).unwrap_or_default();
    [
        format!("rising {} {TWO_YEARS}{cron}", minute(2027, 1, 1)),
        format!("falling {} {TWO_YEARS}{cron}", minute(2028, 12, 31)),
    ]
}

/// The COUNT-th day at both ends of COUNT and of the window: from its first day on, from its last day on, and from
/// the days on from which, where every day is held, the 9,999th is the last day of the window or is past it.
fn counts(parts: &str) -> Vec<String> {
    let days = LAST_MINUTE / MINUTES_OF_A_DAY;
    let starts = [0, days - MOST_COUNT + 1, days - MOST_COUNT + 2, days];
    let lines = starts.map(|day| started(day * MINUTES_OF_A_DAY, parts).unwrap_or_default());
    let rules = lines.map(|line| frames_of(&format!("Z +0000\n{line}\n")));
    let asked =
        |rule: &String| [1, 2, MOST_COUNT - 1, MOST_COUNT].map(|n| format!("nth {n}{rule}"));
    rules.iter().flat_map(asked).collect()
}

fn round(random: &mut Random) -> Vec<String> {
    let rule = frames_of(&format!("Z +0000\n{}\n", rule_line(random)));
    let large = large_set_rule_line(random);
    let cron = frames_of(&format!("Z +0000\n{}\n", cron_line(random)));
    let many = frames_of(&sheet(random));
    let mut all = vec![
        format!("rising 0 {MANY}{rule}"),
        format!("falling {LAST_MINUTE} {SOME}{rule}"),
        format!("rising {} {SOME}{cron}", random.between(0, LAST_MINUTE)),
        format!("falling {} {SOME}{cron}", random.between(0, LAST_MINUTE)),
        format!("rising {} {SOME}{many}", random.between(0, LAST_MINUTE)),
        format!("falling {} {SOME}{many}", random.between(0, LAST_MINUTE)),
        format!("nth {}{rule}", random.between(1, 60)),
        format!("nth {}{rule}", random.between(1, MOST_COUNT)),
    ];
    all.extend(whole(&large));
    all
}

/// The lines of a sheet's plan that are no zone and no end, each after a space.
fn frames_of(sheet: &str) -> String {
    let (compiled, plan) = compile(sheet.as_bytes(), usize::MAX);
    assert_eq!(compiled.number, 0, "this sheet should be taken:\n{sheet}");
    plan.lines()
        .filter(|line| !["01", "02", "FF"].contains(&&line[..2]))
        .map(|line| format!(" {line}"))
        .collect()
}
