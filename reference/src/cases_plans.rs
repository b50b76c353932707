//! The suite `plans`: the load check, next, previous, local minutes and offsets of generated plans, taken and damaged.

use crate::cases_zones::plans_of_zones;
use crate::entries::compile;
use crate::generate::{
    all_cron_lines, all_positions, all_positions_of_years, bad_plan, crowded_sheet, damaged,
    damaged_everywhere, eight_cron_lines, empty_sheet, ends_sheet, full_sheet, large_set_sheet,
    lines_of_years, midnight_sheet, near_a_transition, offset_text, plans_at_the_edges,
    plans_at_the_zone_limits, sheet, with_flags, with_month_masks, with_short_rules, TWO_YEARS,
};
use crate::hex::word_of;
use crate::local::{minute_of, FIRST_MINUTE, LAST_MINUTE, MINUTES_OF_A_DAY};
use crate::plan::{self, frame::Frame, Plan};
use crate::random::Random;
use crate::searches::{any_instant, Search, Searches, NEXT, PREVIOUS};
use crate::zone::{Zone, OFFSETS};

type Requests = Box<dyn Iterator<Item = String>>;

/// Rounds for `--times 1`: a plan of a sort, damaged copies of it, and another plan that is mostly refused.
const ROUNDS: u64 = 300;
pub const SORTS: u64 = 10;
const DAMAGES: u64 = 4;
const BAD_SORTS: u64 = 8;

/// Rules of years that stand together.
const RULES_OF_A_SHEET: usize = 4;

/// Spring and autumn of document 01's example.
const ZONE: &str = "Z +0100\nT 20260329T0100 +0200\nT 20261025T0100 +0100\n";

/// Document 01's whole example.
const EXAMPLE: &str = "\
01003C
0200D2963C0078
0200D7337C003C
03000000004000000000000004FFFFFFFE1FFE7F00
FF04
";

/// A frame of every kind, rules of every frequency and with every group of fields. The starts are the 31st, a
/// Saturday and the fifth one, so that a wrong field leaves the start an occurrence as often as can be.
pub const EVERY_KIND: &str = "\
Z +0100
T 20260329T0100 +0200
T 20261025T0100 +0100
C 30 2 * * *
C 0-59 0-23 1-31 1-12 0-6
C 0 0 13 2 5
R 20260131T0600 FREQ=DAILY
R 20260131T0600 FREQ=DAILY;INTERVAL=999;BYDAY=SA;BYMONTHDAY=31,-1
R 20260131T0600 FREQ=WEEKLY
R 20260131T0600 FREQ=WEEKLY;INTERVAL=2;BYDAY=SU,SA;UNTIL=20260131T0600
R 20260131T0600 FREQ=MONTHLY
R 20260131T0600 FREQ=MONTHLY;BYDAY=SA
R 20260131T0600 FREQ=MONTHLY;BYDAY=SA,5SA,-1SA;BYMONTHDAY=31,-1;COUNT=3
R 20260131T0600 FREQ=MONTHLY;BYDAY=5SA
R 20260131T0600 FREQ=MONTHLY;BYDAY=MO,SA;BYSETPOS=-1,9
R 20260131T0600 FREQ=YEARLY
R 20260131T0600 FREQ=YEARLY;INTERVAL=4;BYDAY=SA;BYMONTHDAY=31,-1;COUNT=3
R 20260131T0600 FREQ=YEARLY;BYDAY=SA,5SA,-1SA;BYMONTH=1,2,12
R 20260131T0600 FREQ=YEARLY;BYDAY=MO,SA;BYSETPOS=-1,9
D 20260329T0230
X 20260329T0330
";

/// A rule of every frequency; its month mask is changed.
const EVERY_MONTH: [&str; 6] = [
    "R 20260131T0600 FREQ=DAILY",
    "R 20260131T0600 FREQ=WEEKLY;BYMONTH=1,2",
    "R 20260131T0600 FREQ=MONTHLY;BYMONTH=1,12",
    "R 20260131T0600 FREQ=YEARLY",
    "R 20260131T0600 FREQ=YEARLY;BYDAY=5SA,SU;BYMONTH=1,5,8",
    "R 20260131T0600 FREQ=YEARLY;BYDAY=SU,SA;BYSETPOS=9,-1",
];

pub fn requests(seed: u64, times: u64) -> Requests {
    let mut random = Random::new(seed);
    let mut fixed = about_fixed_plans(&mut random);
    let zones = plans_of_zones(&mut random, times);
    for text in zones.iter().map(|text| text.as_bytes()) {
        fixed.push(check(text));
        fixed.extend(plan::read(text).map(|taken| offsets(text, &taken.zone)));
    }
    for text in plans_at_the_edges(&mut random) {
        fixed.extend(about(&text, &mut random));
    }
    let rounds = times.saturating_mul(ROUNDS);
    let rounds = (0..rounds).flat_map(move |number| round(number, &mut random));
    Box::new(fixed.into_iter().chain(rounds))
}

/// The plans that do not go by the seed.
fn about_fixed_plans(random: &mut Random) -> Vec<String> {
    let mut fixed = example_damaged();
    fixed.extend(refused_at_the_extremes());
    fixed.extend(exceptions_in_a_gap());
    fixed.extend(lengths_of_a_plan());
    for text in plans_past_16_bits() {
        fixed.extend(about_few(&text, random));
    }
    let sheets = [
        sheets_at_the_ends(),
        sheets_of_positions(),
        sheets_of_years(),
        sheets_of_crons(),
    ]
    .concat();
    for sheet in sheets {
        fixed.extend(about(plan_of(&sheet).as_bytes(), random));
    }
    for line in EVERY_MONTH {
        let plan = plan_of(&format!("Z +0100\n{line}\n"));
        for text in with_month_masks(&plan) {
            fixed.extend(about_few(&text, random));
        }
    }
    for sheet in sheets_of_eight() {
        let word = word_of(plan_of(&sheet).as_bytes());
        fixed.extend(two_years().map(|(name, from)| format!("{name} {word} {from} {TWO_YEARS}")));
    }
    for text in with_flags(&plan_of("Z +0100\nC 30 2 * * *\nC 0 0 * * *\n")) {
        fixed.extend(about_few(&text, random));
    }
    let every_kind = plan_of(EVERY_KIND);
    fixed.extend(about(every_kind.as_bytes(), random));
    let mut damages = [damaged_everywhere(&every_kind), plans_at_the_zone_limits()].concat();
    for length in [38, 39, 40] {
        damages.extend(with_short_rules(&every_kind, length)); // of 39 bytes without a month mask
    }
    fixed.extend(damages.iter().map(|text| check(text)));
    fixed
}

fn check(text: &[u8]) -> String {
    format!("check {}", word_of(text))
}

/// The example cut after each byte, with each byte changed, left out and doubled, and with something after it.
fn example_damaged() -> Vec<String> {
    let text = EXAMPLE.as_bytes();
    let mut all = Vec::new();
    for at in 0..text.len() {
        all.push(check(&text[..at]));
        for other in *b"0F\nGf \r\0" {
            all.push(check(&replaced(text, at..at + 1, &[other])));
        }
        all.push(check(&replaced(text, at..at + 1, b"")));
        all.push(check(&replaced(text, at..at, &text[at..at + 1])));
    }
    for tail in ["", "\n", " ", "F", "FF04\n", "FF05\n", "01003C\n", "\0"] {
        all.push(check(format!("{EXAMPLE}{tail}").as_bytes()));
    }
    all
}

fn replaced(text: &[u8], place: std::ops::Range<usize>, by: &[u8]) -> Vec<u8> {
    [&text[..place.start], by, &text[place.end..]].concat()
}

/// "10, then 11" and "10, then 5": a plan that is not taken, asked where there is no instant and no local minute.
fn refused_at_the_extremes() -> Vec<String> {
    let mut all = Vec::new();
    for text in ["", "01003C\n", "01003C\nFF02\n", "01003C\nFF01\n\n"] {
        let plan = word_of(text.as_bytes());
        for asked in [i64::MIN, FIRST_MINUTE - 1, LAST_MINUTE + 1, i64::MAX] {
            all.push(format!("next {plan} {asked} 1"));
            all.push(format!("previous {plan} {asked} 1"));
            all.push(format!("local {plan} {asked}"));
        }
    }
    all
}

/// A minute of the gap and the one that lands on the same instant, of which one is extra and the other excepted: the instant
/// stays, since X takes a local minute away and not what it becomes.
fn exceptions_in_a_gap() -> Vec<String> {
    let mut all = Vec::new();
    for (extra, excepted) in [("0230", "0330"), ("0330", "0230")] {
        let text = plan_of(&format!(
            "Z +0100\nT 20260329T0100 +0200\nD 20260329T{extra}\nX 20260329T{excepted}\n"
        ));
        let plan = word_of(text.as_bytes());
        all.push(format!("next {plan} {} 2", i64::MIN));
        all.push(format!("previous {plan} {} 2", i64::MAX));
    }
    all
}

/// 0 to 70 frames before the end frame with every number near theirs, 30 to 35 transitions, and lines far longer
/// than any frame.
fn lengths_of_a_plan() -> Vec<String> {
    let mut all = Vec::new();
    for transitions in 30..=35_i64 {
        let line = |k: i64| format!("02{:08X}{:04X}\n", 2_880 * k, 60 + k % 2 * 60);
        let lines: String = (1..=transitions).map(line).collect();
        let end = format!("FF{:02X}\n", transitions + 1);
        all.push(check(format!("01003C\n{lines}{end}").as_bytes()));
    }
    for frames in 0..=70_i64 {
        let lines: String = (0..frames).map(line_of_zone_or_extra).collect();
        for number in [frames - 1, frames, frames + 1] {
            all.push(check(
                format!("{lines}FF{:02X}\n", number & 0xFF).as_bytes(),
            ));
        }
        all.push(check(lines.as_bytes()));
    }
    for digits in [78, 80, 82, 256, 1_000, 20_000] {
        let long = "0".repeat(digits);
        all.push(check(format!("01003C\n{long}\nFF02\n").as_bytes()));
        all.push(check(format!("01003C\n04{long}\nFF02\n").as_bytes()));
        all.push(check(format!("{EXAMPLE}{long}").as_bytes()));
    }
    all
}

/// No bytes, and plans that are refused for what stands after the example, of which the example alone, or nothing,
/// would be left if the length were cut to 16 bits.
fn plans_past_16_bits() -> Vec<Vec<u8>> {
    let example = EXAMPLE.len();
    let mut all = vec![Vec::new()];
    for length in [65_535, 65_536, 65_536 + example, 131_072 + example] {
        for after in ["0", "\n", "01003C\n"] {
            let mut text = EXAMPLE.to_string();
            while text.len() < length {
                text.push_str(after);
            }
            text.truncate(length);
            all.push(text.into_bytes());
        }
    }
    all
}

/// Doses at both ends of the window, and every minute of the days there, by the zones at the ends.
pub fn sheets_at_the_ends() -> Vec<String> {
    let doses = ["D 20000101T0000\nD 20991231T2359", "C * * 1,31 1,12 *"];
    let zones = zones_at_the_ends().into_iter();
    zones
        .flat_map(|zone| doses.map(|lines| format!("{zone}\n{lines}\n")))
        .collect()
}

/// Offsets at both ends of theirs, by which the latest and the earliest instants are: alone, and with a clock that is
/// set at an end of the window, to or from such an offset.
fn zones_at_the_ends() -> Vec<String> {
    let mut zones = Vec::new();
    for offset in [*OFFSETS.start(), 0, *OFFSETS.end()] {
        let one = offset_text(offset);
        zones.push(format!("Z {one}"));
        let others = [-180, -1, 1, 180].map(|change| offset + change);
        for other in others.into_iter().filter(|other| OFFSETS.contains(other)) {
            let other = offset_text(other);
            for time in ["20000101T0000", "20000101T0001", "20991231T2359"] {
                zones.push(format!("Z {one}\nT {time} {other}"));
                zones.push(format!("Z {other}\nT {time} {one}"));
            }
        }
    }
    zones
}

/// Every position in months, and every third in years, of either sign in turn.
pub fn sheets_of_positions() -> Vec<String> {
    let years = all_positions_of_years().into_iter().step_by(3);
    let lines = all_positions().into_iter().chain(years);
    lines.map(|line| format!("Z +0000\n{line}\n")).collect()
}

/// Rules of years and of months, some to a sheet.
pub fn sheets_of_years() -> Vec<String> {
    let lines = lines_of_years();
    let some = lines.chunks(RULES_OF_A_SHEET);
    some.map(|rules| format!("{ZONE}{}\n", rules.join("\n")))
        .collect()
}

/// A cron line each, with every set of restricted fields.
pub fn sheets_of_crons() -> Vec<String> {
    alone(all_cron_lines())
}

/// One of each of the eight sets.
pub fn sheets_of_eight() -> Vec<String> {
    alone(eight_cron_lines())
}

fn alone(lines: Vec<String>) -> Vec<String> {
    let sheets = lines.iter().map(|line| format!("{ZONE}{line}\n"));
    sheets.collect()
}

/// The name of a search and the instant before 2027, or after 2028, of which it asks as many answers as these years have
/// days.
pub fn two_years() -> [(&'static str, i64); 2] {
    let from = |year, month, day| minute_of(year, month, day, 12, 0).unwrap_or_default();
    [(NEXT, from(2026, 12, 31)), (PREVIOUS, from(2028, 12, 31))]
}

fn line_of_zone_or_extra(place: i64) -> String {
    match place {
        0 => "01003C\n".to_string(),
        _ => format!("05{place:08X}\n"),
    }
}

fn round(number: u64, random: &mut Random) -> Vec<String> {
    let text = plan_of(&some_sheet(number % SORTS, random));
    let mut all = about(text.as_bytes(), random);
    for _ in 0..DAMAGES {
        all.extend(about_few(&damaged(&text, random), random));
    }
    all.extend(about(&bad_plan(number % BAD_SORTS, random), random));
    all
}

fn plan_of(sheet: &str) -> String {
    let (compiled, text) = compile(sheet.as_bytes(), usize::MAX);
    assert_eq!(compiled.number, 0, "this sheet should be taken:\n{sheet}");
    text
}

pub fn some_sheet(sort: u64, random: &mut Random) -> String {
    match sort {
        0 => full_sheet(random),
        1 => empty_sheet(random),
        2 => ends_sheet(random),
        3 => crowded_sheet(random),
        4 | 5 => midnight_sheet(random),
        6 => large_set_sheet(random),
        _ => sheet(random),
    }
}

/// Everything that is asked of a plan.
fn about(text: &[u8], random: &mut Random) -> Vec<String> {
    match plan::read(text) {
        Ok(taken) => about_taken(text, &taken, random),
        Err(_) => about_few(text, random),
    }
}

/// Each function about once, which is enough for a refused plan: its answer is the same for all instants.
fn about_few(text: &[u8], random: &mut Random) -> Vec<String> {
    let plan = word_of(text);
    let (instant, minute) = (any_instant(random), any_instant(random));
    vec![
        check(text),
        format!("next {plan} {instant} 3"),
        format!("previous {plan} {instant} 3"),
        format!("local {plan} {minute} {}", random.any()),
        format!("offset {plan} {instant} {}", random.any()),
    ]
}

/// Everything that is asked of a taken plan.
fn about_taken(text: &[u8], plan: &Plan, random: &mut Random) -> Vec<String> {
    let mut asked = Searches {
        zone: &plan.zone,
        named: plan.frames.iter().flat_map(named_by).collect(),
        in_turn: if plan.frames.len() > 40 { 12 } else { 40 },
        random,
        all: Vec::new(),
    };
    asked.at_the_extremes();
    asked.anywhere(2);
    asked.around_some_transitions(3);
    asked.around_named_minutes(3);
    let word = word_of(text);
    let request = |search: &Search| {
        let Search { name, from, count } = search;
        format!("{name} {word} {from} {count}")
    };
    let mut all = vec![check(text)];
    all.extend(asked.all.iter().map(request));
    let minutes = local_minutes(&plan.zone, random);
    all.push(format!("local {word} {}", minutes.join(" ")));
    all.push(offsets(text, &plan.zone));
    all
}

/// The offset at each transition and a minute before and after it, at both ends of the window and a day outside it,
/// and at the 64-bit ends.
fn offsets(text: &[u8], zone: &Zone) -> String {
    let transitions = zone.transitions.iter().map(|transition| transition.instant);
    let (first, past) = (FIRST_MINUTE, LAST_MINUTE + 1);
    let ends = [
        first - MINUTES_OF_A_DAY,
        first,
        past,
        past + MINUTES_OF_A_DAY,
    ];
    let beside = |instant| [instant - 1, instant, instant + 1];
    let near = transitions.chain(ends).flat_map(beside);
    let asked: Vec<String> = [i64::MIN, i64::MIN + 1, i64::MAX - 1, i64::MAX]
        .into_iter()
        .chain(near)
        .map(|instant| instant.to_string())
        .collect();
    format!("offset {} {}", word_of(text), asked.join(" "))
}

/// Minutes in and around gaps and doubled hours, at both ends of the window and outside it.
fn local_minutes(zone: &Zone, random: &mut Random) -> Vec<String> {
    let mut minutes = vec![
        i64::MIN,
        FIRST_MINUTE - 1,
        FIRST_MINUTE,
        LAST_MINUTE,
        LAST_MINUTE + 1,
        i64::MAX,
        random.any(),
    ];
    for _ in 0..20 {
        minutes.push(near_a_transition(zone, random));
        minutes.push(any_instant(random));
    }
    for at in 0..zone.transitions.len().min(8) {
        minutes.extend(sides(zone, at));
    }
    minutes.iter().map(i64::to_string).collect()
}

/// The first and the last minute of a gap or a doubled hour, and those beside them.
fn sides(zone: &Zone, at: usize) -> [i64; 4] {
    let transition = &zone.transitions[at];
    let before = transition.instant + zone.offset_at(transition.instant - 1);
    let after = transition.instant + transition.offset;
    let (first, past) = (before.min(after), before.max(after));
    [first - 1, first, past - 1, past]
}

fn named_by(frame: &Frame) -> Vec<i64> {
    match frame {
        Frame::Extra { minute } | Frame::Excepted { minute } => vec![*minute],
        Frame::Rule(rule) => vec![rule.start, rule.last],
        _ => Vec::new(),
    }
}
