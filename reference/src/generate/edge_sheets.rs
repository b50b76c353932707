//! Sheets at the edges of the search: the most lines, clocks that are set about midnight, both ends of the
//! window, and sheets that hold nothing.

use super::zones::{changed, offset_text};
use super::{cron_line, near_a_transition, rule_line, text_of, with_times, zone_lines};
use crate::local::{written, FIRST_MINUTE, LAST_MINUTE, MINUTES_OF_A_DAY};
use crate::random::Random;
use crate::sheet::{read, zone_of};
use crate::zone::MOST_TRANSITIONS;

const MOST_LINES: usize = 64;

/// A sheet of 64 lines with 32 transitions.
pub fn full_sheet(random: &mut Random) -> String {
    let mut lines = zone_lines(random);
    while lines.len() <= MOST_TRANSITIONS {
        lines = zone_lines(random);
    }
    filled_up(lines, MOST_LINES, random)
}

/// A sheet of so many lines, some of which are the zone's.
pub fn sheet_of_lines(number: usize, random: &mut Random) -> String {
    let mut lines = zone_lines(random);
    lines.truncate(random.between(1, number as i64) as usize);
    filled_up(lines, number, random)
}

/// The zone's lines and lines of other kinds, so many in all.
fn filled_up(mut lines: Vec<String>, number: usize, random: &mut Random) -> String {
    let zone = zone_of(&read(text_of(&lines).as_bytes()).unwrap_or_default());
    while lines.len() < number {
        let near = written(near_a_transition(&zone, random));
        lines.push(match random.between(0, 7) {
            0 => format!("D {near}"),
            1 => format!("X {near}"),
            2 | 3 => cron_line(random),
            _ => rule_line(random),
        });
    }
    text_of(&lines)
}

/// Clocks that are set so that the gap or the doubled hour is about midnight, and doses at all hours about it.
pub fn midnight_sheet(random: &mut Random) -> String {
    let mut offset = 60 * random.between(-9, 11);
    let mut lines = vec![format!("Z {}", offset_text(offset))];
    let mut day = random.between(2, 36_000);
    for _ in 0..random.between(1, 4) {
        let before = offset;
        offset = changed(offset, random);
        let change = offset - before;
        let within = change.signum() * random.between(-10, change.abs() + 10);
        let instant = MINUTES_OF_A_DAY * day - before - within;
        lines.push(format!("T {} {}", written(instant), offset_text(offset)));
        day += random.between(3, 60);
    }
    let first = MINUTES_OF_A_DAY * random.between(0, 2);
    for hour in [0, 1, 2, 21, 22, 23] {
        let minute = random.between(0, 59);
        lines.push(match random.between(0, 3) {
            0 => format!("R {} FREQ=DAILY", written(first + 60 * hour + minute)),
            1 => format!("C {minute},{} {hour} * * *", random.between(0, 59)),
            _ => format!("C {minute} {hour} * * *"),
        });
    }
    with_times(lines, random)
}

/// A clock that is set at an end of the window, and doses at both ends.
pub fn ends_sheet(random: &mut Random) -> String {
    let offset = 60 * random.between(-9, 11);
    let mut lines = vec![format!("Z {}", offset_text(offset))];
    let at = match random.between(0, 1) {
        0 => random.between(FIRST_MINUTE, 3_000),
        _ => LAST_MINUTE - random.between(0, 3_000),
    };
    let other = changed(offset, random);
    lines.push(format!("T {} {}", written(at), offset_text(other)));
    // 2000-01-01 is a Saturday: its week and, by positions, its month begin before what is held
    let rules = [
        "R 20000101T0000 FREQ=DAILY;INTERVAL=7",
        "R 20000101T0000 FREQ=WEEKLY;INTERVAL=2;BYDAY=SA,MO",
        "R 20000131T2359 FREQ=MONTHLY;BYMONTHDAY=-1",
        "R 20000103T0000 FREQ=MONTHLY;BYDAY=MO,SA;BYSETPOS=2,-1",
        "R 20991231T2359 FREQ=WEEKLY;INTERVAL=999",
        "R 20991231T2359 FREQ=MONTHLY;BYDAY=-1TH",
        "R 20000101T0000 FREQ=YEARLY;BYDAY=SA,TH;BYSETPOS=1,-1",
        "R 20991231T2359 FREQ=YEARLY",
        "R 20000101T2359 FREQ=WEEKLY;BYDAY=SA,SU,MO;BYMONTH=12,1",
        "C 0,59 0,23 1,31 1,12 *",
        "C 0-59 0,23 31 12 4",
    ];
    for _ in 0..random.between(1, 3) {
        let chosen = random.between(0, rules.len() as i64 - 1);
        lines.push(rules[chosen as usize].to_string());
    }
    for near in [FIRST_MINUTE, FIRST_MINUTE, LAST_MINUTE, LAST_MINUTE] {
        let minute = (near + random.between(-900, 900)).clamp(FIRST_MINUTE, LAST_MINUTE);
        lines.push(format!("D {}", written(minute)));
    }
    with_times(lines, random)
}

/// Nothing is held: days that no month has, or times that are excepted again.
pub fn empty_sheet(random: &mut Random) -> String {
    let mut lines = zone_lines(random);
    for _ in 0..random.between(0, 3) {
        let time = written(random.between(FIRST_MINUTE, LAST_MINUTE));
        match random.between(0, 3) {
            0 => lines.push("C 0 0 30 2 *".to_string()),
            1 => lines.push(format!("C * {} 31 2,4,6,9,11 *", random.between(0, 23))),
            2 => lines.extend([format!("X {time}"), format!("D {time}")]),
            _ => lines.extend([format!("R {time} FREQ=DAILY;COUNT=1"), format!("X {time}")]),
        }
    }
    text_of(&lines)
}
