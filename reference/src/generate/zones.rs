//! Random Z and T lines within the zone limits.

use crate::local::{is_local_minute, written, LAST_MINUTE};
use crate::random::Random;
use crate::zone::{MOST_TRANSITIONS, OFFSETS};

/// The Z line, and after it none, some or the most T lines.
pub fn zone_lines(random: &mut Random) -> Vec<String> {
    let mut offset = random_offset(random);
    let mut lines = vec![format!("Z {}", offset_text(offset))];
    let transitions = match random.between(0, 3) {
        0 => 0,
        1 => MOST_TRANSITIONS as i64,
        _ => random.between(1, 6),
    };
    let mut instant = random.between(0, LAST_MINUTE);
    for _ in 0..transitions {
        if !is_local_minute(instant) {
            break;
        }
        offset = changed(offset, random);
        lines.push(format!("T {} {}", written(instant), offset_text(offset)));
        instant += distance(random);
    }
    lines
}

fn random_offset(random: &mut Random) -> i64 {
    match random.between(0, 3) {
        0 => *OFFSETS.start(),
        1 => *OFFSETS.end(),
        2 => random.between(*OFFSETS.start(), *OFFSETS.end()),
        _ => random.between(-12, 14) * 60,
    }
}

/// Another offset in range, by 1 to 180 minutes, often by an hour or by the most.
pub fn changed(offset: i64, random: &mut Random) -> i64 {
    let change = match random.between(0, 3) {
        0 => 180,
        1 => random.between(1, 180),
        _ => 60,
    };
    let other = match random.between(0, 1) {
        0 => offset + change,
        _ => offset - change,
    };
    if OFFSETS.contains(&other) {
        other
    } else {
        2 * offset - other
    }
}

/// At least 2,880 minutes, often exactly so many.
fn distance(random: &mut Random) -> i64 {
    match random.between(0, 2) {
        0 => 2_880,
        1 => random.between(2_880, 6_000),
        _ => random.between(200_000, 300_000),
    }
}

/// "An *offset* is a sign and `HHMM`".
pub fn offset_text(offset: i64) -> String {
    let sign = if offset < 0 { '-' } else { '+' };
    format!("{sign}{:02}{:02}", offset.abs() / 60, offset.abs() % 60)
}
