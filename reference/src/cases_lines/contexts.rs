//! What stands before a line.

use crate::answer_lines::{Before, Context};
use crate::local::{LAST_MINUTE, MINUTES_OF_A_DAY};
use crate::random::Random;
use crate::zone::{LEAST_DISTANCE, MOST_TRANSITIONS, OFFSETS};

pub const MOST: i64 = MOST_TRANSITIONS as i64;

/// So many T that none may stand after them. The last three are 0 where the number is cut to 6, 8 or 32 bits.
pub const TOO_MANY: [i64; 5] = [MOST, MOST + 1, 64, 256, 1 << 32];

pub fn nothing() -> Context {
    Context {
        before: Before::Nothing,
        low: -MINUTES_OF_A_DAY,
        offset: -MINUTES_OF_A_DAY,
    }
}

/// After a Z with this offset.
pub fn zone(offset: i64) -> Context {
    after(0, -LEAST_DISTANCE, offset)
}

/// After a Z and so many T, of which the last has this instant and offset.
pub fn after(changes: i64, instant: i64, offset: i64) -> Context {
    Context {
        before: Before::Zone { changes },
        low: instant + LEAST_DISTANCE,
        offset,
    }
}

/// After lines of other kinds; the numbers are those of the zone before them.
pub fn lines(zone: Context) -> Context {
    Context {
        before: Before::Lines,
        ..zone
    }
}

/// After a Z at the ends of the offsets, after the first and the last transitions and too many, and after other lines.
pub fn all() -> Vec<Context> {
    let mut all = vec![nothing()];
    all.extend([*OFFSETS.start(), 0, 60, *OFFSETS.end()].map(zone));
    all.push(Context {
        low: -MINUTES_OF_A_DAY,
        ..zone(60)
    });
    let (early, late) = (0, LAST_MINUTE);
    all.extend([1, 2, MOST - 1].map(|changes| after(changes, early, 60)));
    all.extend(TOO_MANY.map(|changes| after(changes, early, 60)));
    all.push(after(1, late, 60));
    all.push(after(MOST - 1, late - LEAST_DISTANCE, 0));
    all.extend(TOO_MANY.map(|changes| after(changes, late - LEAST_DISTANCE, 0)));
    all.push(lines(zone(60)));
    all.push(lines(after(1, early, 120)));
    all.push(lines(after(MOST, late, 0)));
    all
}

/// Where lines that are no Z and no T may stand.
pub fn of_others() -> [Context; 3] {
    [zone(0), after(2, 13_800_960, 60), lines(zone(60))]
}

/// Any of them.
pub fn any(random: &mut Random) -> Context {
    match random.between(0, 5) {
        0 => nothing(),
        1 => zone(any_offset(random)),
        2 | 3 => any_zone(random),
        _ => lines(any_zone(random)),
    }
}

/// After a Z and some T.
pub fn any_zone(random: &mut Random) -> Context {
    let changes = any_changes(random);
    let instant = random.between(0, LAST_MINUTE);
    after(changes, instant, any_offset(random))
}

/// 1 to 32 T, and at times too many.
pub fn any_changes(random: &mut Random) -> i64 {
    match random.between(0, 7) {
        0 => TOO_MANY[random.between(0, TOO_MANY.len() as i64 - 1) as usize],
        1 => random.between(MOST - 2, MOST),
        _ => random.between(1, MOST),
    }
}

pub fn any_offset(random: &mut Random) -> i64 {
    match random.between(0, 3) {
        0 => random.between(-12, 14) * 60,
        _ => random.between(*OFFSETS.start(), *OFFSETS.end()),
    }
}
