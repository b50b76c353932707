//! What a sheet or a plan means: a zone and the local minutes that are held. "Then each local minute becomes
//! one instant; equal instants are one."

pub mod rule;

mod cron;

use crate::local::LAST_MINUTE;
use crate::minutes::MinuteSet;
use crate::sheet::line::Line;
use crate::sheet::zone_of;
use crate::zone::{Zone, OFFSETS};

#[derive(PartialEq, Eq)]
pub struct Meaning {
    pub zone: Zone,
    pub minutes: MinuteSet,
}

/// "All local minutes of C, R and D lines, less those of X lines (wherever they stand)."
pub fn of_sheet(lines: &[Line]) -> Meaning {
    let mut minutes = MinuteSet::empty();
    for line in lines {
        match line {
            Line::Cron(cron) => cron::add(cron, &mut minutes),
            Line::Rule(rule) => rule::occurrences(rule).for_each(|minute| minutes.add(minute)),
            Line::Extra(minute) => minutes.add(*minute),
            Line::Zone(_) | Line::Transition(_) | Line::Excepted(_) => {}
        }
    }
    for line in lines {
        if let Line::Excepted(minute) = line {
            minutes.take_away(*minute);
        }
    }
    Meaning {
        zone: zone_of(lines),
        minutes,
    }
}

impl Meaning {
    /// All instants, rising, each once.
    pub fn instants(&self) -> Vec<i64> {
        let minutes = self.minutes.rising_from(0);
        let mut instants: Vec<i64> = minutes.map(|m| self.zone.instant_of(m)).collect();
        instants.sort_unstable();
        instants.dedup();
        instants
    }

    /// The least instant strictly later than the asked one. Local minute m becomes an instant from
    /// m - 840 to m + 720, so m below asked - 720 is too early, and one above the best + 840 changes nothing.
    pub fn next(&self, asked: i64) -> Option<i64> {
        let asked = asked.clamp(-OFFSETS.end() - 1, LAST_MINUTE - OFFSETS.start());
        let mut best: Option<i64> = None;
        for minute in self.minutes.rising_from(asked + OFFSETS.start()) {
            if best.map_or(false, |found| minute > found + OFFSETS.end()) {
                break;
            }
            let instant = self.zone.instant_of(minute);
            if instant > asked && best.map_or(true, |found| instant < found) {
                best = Some(instant);
            }
        }
        best
    }

    /// The greatest instant strictly earlier than the asked one; the mirror image of `next`.
    pub fn previous(&self, asked: i64) -> Option<i64> {
        let asked = asked.clamp(-OFFSETS.end(), LAST_MINUTE - OFFSETS.start() + 1);
        let mut best: Option<i64> = None;
        for minute in self.minutes.falling_from(asked + OFFSETS.end()) {
            if best.map_or(false, |found| minute < found + OFFSETS.start()) {
                break;
            }
            let instant = self.zone.instant_of(minute);
            if instant < asked && best.map_or(true, |found| instant > found) {
                best = Some(instant);
            }
        }
        best
    }
}
