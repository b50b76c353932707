//! Random sheets that are taken, for tests, for the peers and for comparisons; and sheets and plans at the edges
//! of what is taken.

mod bad_lines;
mod bad_plan;
mod bad_sheet;
mod cron;
mod edge_sheets;
mod rule;
mod seconds;
mod years;
mod zones;

pub use bad_lines::edge_lines;
pub use bad_plan::{
    bad_plan, damaged, damaged_everywhere, plans_at_the_edges, plans_at_the_zone_limits,
    with_flags, with_month_masks, with_short_rules,
};
pub use bad_sheet::{bad_sheet, refused_sheet};
pub use cron::{all_cron_lines, cron_line, eight_cron_lines, TWO_YEARS};
pub use edge_sheets::{empty_sheet, ends_sheet, full_sheet, midnight_sheet, sheet_of_lines};
pub use rule::{all_positions, all_positions_of_years, large_set_rule_line, rule_line};
pub use seconds::with_seconds;
pub use years::{lines_of_years, started};
pub use zones::{offset_text, zone_lines};

use crate::local::{written, FIRST_MINUTE, LAST_MINUTE};
use crate::meaning::{of_sheet, Meaning};
use crate::random::Random;
use crate::sheet::{read, zone_of};
use crate::zone::Zone;

/// A sheet with some lines of every kind. Excepted times are often held ones.
pub fn sheet(random: &mut Random) -> String {
    let mut lines = zone_lines(random);
    for _ in 0..random.between(0, 5) {
        lines.push(match random.between(0, 4) {
            0 | 1 => cron_line(random),
            _ => rule_line(random),
        });
    }
    with_times(lines, random)
}

/// A sheet whose rules pick from large sets.
pub fn large_set_sheet(random: &mut Random) -> String {
    let mut lines = zone_lines(random);
    lines.truncate(4);
    for _ in 0..random.between(1, 4) {
        lines.push(large_set_rule_line(random));
    }
    with_times(lines, random)
}

/// The lines with some extra and some excepted times.
fn with_times(mut lines: Vec<String>, random: &mut Random) -> String {
    let taken = match read(text_of(&lines).as_bytes()) {
        Ok(taken) => taken,
        Err(_) => return text_of(&lines), // a sheet that is not taken is for the caller to see
    };
    let meaning = of_sheet(&taken);
    for _ in 0..random.between(0, 5) {
        let extra = near_a_transition(&meaning.zone, random);
        lines.push(format!("D {}", written(extra)));
    }
    for _ in 0..random.between(0, 5) {
        let excepted = held_or_any(&meaning, random);
        lines.push(format!("X {}", written(excepted)));
    }
    text_of(&lines)
}

/// A sheet of few lines, with a zone of at most three transitions.
pub fn short_sheet(random: &mut Random) -> String {
    let mut lines = zone_lines(random);
    lines.truncate(random.between(1, 4) as usize);
    for _ in 0..random.between(1, 4) {
        let minute = written(random.between(FIRST_MINUTE, LAST_MINUTE));
        lines.push(match random.between(0, 5) {
            0 => format!("D {minute}"),
            1 => format!("X {minute}"),
            2 => cron_line(random),
            _ => rule_line(random),
        });
    }
    text_of(&lines)
}

/// A sheet of 64 lines: a zone with few transitions, and extra times that crowd around them.
pub fn crowded_sheet(random: &mut Random) -> String {
    let mut lines = zone_lines(random);
    lines.truncate(4);
    let zone = zone_of(&read(text_of(&lines).as_bytes()).unwrap_or_default());
    while lines.len() < 64 {
        let extra = near_a_transition(&zone, random);
        lines.push(format!("D {}", written(extra)));
    }
    text_of(&lines)
}

fn text_of(lines: &[String]) -> String {
    lines.iter().map(|line| format!("{line}\n")).collect()
}

/// A local minute near a transition of the zone, any if there is none.
pub fn near_a_transition(zone: &Zone, random: &mut Random) -> i64 {
    let chosen = random.between(0, zone.transitions.len().max(1) as i64 - 1);
    match zone.transitions.get(chosen as usize) {
        Some(transition) => {
            let shown = transition.instant + transition.offset + random.between(-400, 400);
            shown.clamp(FIRST_MINUTE, LAST_MINUTE)
        }
        None => random.between(FIRST_MINUTE, LAST_MINUTE),
    }
}

fn held_or_any(meaning: &Meaning, random: &mut Random) -> i64 {
    let any = match random.between(0, 1) {
        0 => near_a_transition(&meaning.zone, random),
        _ => random.between(FIRST_MINUTE, LAST_MINUTE),
    };
    meaning.minutes.rising_from(any).next().unwrap_or(any)
}
