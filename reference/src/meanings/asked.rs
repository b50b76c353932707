//! The local minutes that are asked about: held ones and those beside them, those around transitions, those that
//! the frames name, and any; a few lie past the window, where nothing is held.

use crate::local::{FIRST_MINUTE, LAST_MINUTE};
use crate::meaning::Meaning;
use crate::plan::frame::Frame;
use crate::random::Random;
use crate::zone::Zone;

/// Minutes of every sort, so many times.
pub fn minutes(times: u64, frames: &[Frame], meaning: &Meaning, random: &mut Random) -> Vec<i64> {
    let mut asked = vec![any(random)];
    for _ in 0..times {
        let held = held_near(any(random), meaning);
        asked.extend(
            held.into_iter()
                .flat_map(|minute| [minute, beside(minute, random)]),
        );
        asked.extend(around_a_transition(&meaning.zone, random));
        asked.extend(named(frames, random).map(|minute| at_or_beside(minute, random)));
    }
    asked.retain(|&minute| minute >= FIRST_MINUTE);
    asked.sort_unstable();
    asked.dedup();
    asked
}

fn any(random: &mut Random) -> i64 {
    match random.between(0, 9) {
        0 => FIRST_MINUTE,
        1 => LAST_MINUTE,
        2 => LAST_MINUTE + random.between(1, 3_000),
        _ => random.between(FIRST_MINUTE, LAST_MINUTE),
    }
}

/// The next held minute, or the one before.
fn held_near(minute: i64, meaning: &Meaning) -> Option<i64> {
    let later = meaning.minutes.rising_from(minute).next();
    later.or_else(|| meaning.minutes.falling_from(minute).next())
}

fn at_or_beside(minute: i64, random: &mut Random) -> i64 {
    match random.between(0, 1) {
        0 => minute,
        _ => beside(minute, random),
    }
}

/// A minute, an hour, a day, a week, about a month or a year away.
fn beside(minute: i64, random: &mut Random) -> i64 {
    let distances = [1, 60, 1_440, 10_080, 43_200, 44_640, 525_600, 527_040];
    let distance = distances[random.between(0, 7) as usize];
    minute + distance * (2 * random.between(0, 1) - 1)
}

/// The ends of a gap or of a doubled hour, a minute to each side, and a minute within.
fn around_a_transition(zone: &Zone, random: &mut Random) -> Vec<i64> {
    let chosen = random.between(0, zone.transitions.len().max(1) as i64 - 1);
    let transition = match zone.transitions.get(chosen as usize) {
        Some(transition) => transition,
        None => return Vec::new(),
    };
    let shown_before = transition.instant + zone.offset_at(transition.instant - 1);
    let shown_after = transition.instant + transition.offset;
    let (first, past) = (shown_before.min(shown_after), shown_before.max(shown_after));
    let within = random.between(first, past - 1);
    match random.between(0, 1) {
        0 => vec![first - 1, first, within],
        _ => vec![within, past - 1, past],
    }
}

/// An extra or excepted minute, or the start or *last* of a rule.
fn named(frames: &[Frame], random: &mut Random) -> Option<i64> {
    let minutes: Vec<i64> = frames.iter().flat_map(named_by).collect();
    let chosen = random.between(0, minutes.len().max(1) as i64 - 1);
    minutes.get(chosen as usize).copied()
}

fn named_by(frame: &Frame) -> Vec<i64> {
    match frame {
        Frame::Extra { minute } | Frame::Excepted { minute } => vec![*minute],
        Frame::Rule(rule) => vec![rule.start, rule.last],
        _ => Vec::new(),
    }
}
