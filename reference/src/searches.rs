//! The searches that are asked of a plan or of a sheet: at the ends of the numbers and of the window, anywhere, around
//! transitions and around the minutes that are named.

use crate::local::{FIRST_MINUTE, LAST_MINUTE};
use crate::random::Random;
use crate::zone::{Zone, OFFSETS};

/// No instant lies before the first or after the last of these.
const FIRST_INSTANT: i64 = FIRST_MINUTE - *OFFSETS.end();
const LAST_INSTANT: i64 = LAST_MINUTE - *OFFSETS.start();

pub const NEXT: &str = "next";
pub const PREVIOUS: &str = "previous";

/// So many answers in a row, each asked from the one before.
pub struct Search {
    pub name: &'static str,
    pub from: i64,
    pub count: i64,
}

pub struct Searches<'a> {
    pub zone: &'a Zone,
    /// Extra and excepted minutes, and those at which a rule starts and ends.
    pub named: Vec<i64>,
    /// Answers in a row; of a long plan fewer, since each of them loads it again.
    pub in_turn: i64,
    pub random: &'a mut Random,
    pub all: Vec<Search>,
}

pub fn any_instant(random: &mut Random) -> i64 {
    random.between(FIRST_INSTANT - 1, LAST_INSTANT + 1)
}

impl Searches<'_> {
    fn push(&mut self, name: &'static str, from: i64, count: i64) {
        self.all.push(Search { name, from, count });
    }

    /// Next from the one instant on, previous from the other down.
    fn both_ways(&mut self, up_from: i64, down_from: i64) {
        self.push(NEXT, up_from, self.in_turn);
        self.push(PREVIOUS, down_from, self.in_turn);
    }

    fn once(&mut self, instant: i64) {
        self.push(NEXT, instant, 1);
        self.push(PREVIOUS, instant, 1);
    }

    /// The ends of the 64-bit numbers, where an offset would overflow, and those of the window.
    pub fn at_the_extremes(&mut self) {
        self.both_ways(i64::MIN, i64::MAX);
        for instant in [i64::MIN, i64::MAX, i64::MIN + 720, i64::MAX - 840] {
            self.once(instant);
        }
        let any = self.random.any();
        self.once(any);
        for end in [FIRST_INSTANT, LAST_INSTANT] {
            let near = end + self.random.between(-2_000, 2_000);
            for instant in [end - 1, end, end + 1, near] {
                self.once(instant);
            }
        }
    }

    /// Both ways from any instant, so many times.
    pub fn anywhere(&mut self, times: usize) {
        for _ in 0..times {
            let from = any_instant(self.random);
            self.both_ways(from, from);
        }
    }

    /// Around any transitions, at most so many.
    pub fn around_some_transitions(&mut self, most: usize) {
        for _ in 0..self.zone.transitions.len().min(most) {
            let chosen = self.chosen(self.zone.transitions.len());
            self.around_a_transition(chosen);
        }
    }

    fn around_a_transition(&mut self, chosen: usize) {
        let at = self.zone.transitions[chosen].instant;
        let (before, after) = (self.random.between(0, 1_600), self.random.between(0, 1_600));
        self.both_ways(at - before, at + after);
        let near = at + self.random.between(-181, 181);
        for instant in [at - 1, at, at + 1, near] {
            self.once(instant);
        }
    }

    /// Around every transition; and the minutes at the ends of its gap or doubled hour, at their instants and beside them.
    pub fn around_all_transitions(&mut self) {
        for at in 0..self.zone.transitions.len() {
            self.around_a_transition(at);
            let transition = &self.zone.transitions[at];
            let change = transition.offset - self.zone.offset_at(transition.instant - 1);
            for end in [transition.instant - change, transition.instant + change] {
                for instant in [end - 1, end, end + 1] {
                    self.once(instant);
                }
            }
        }
    }

    /// The instants of named minutes, so many times, and those beside them.
    pub fn around_named_minutes(&mut self, times: usize) {
        for _ in 0..times {
            if !self.named.is_empty() {
                let chosen = self.chosen(self.named.len());
                let instant = self.zone.instant_of(self.named[chosen]);
                for asked in [instant - 1, instant, instant + 1] {
                    self.once(asked);
                }
            }
        }
    }

    fn chosen(&mut self, choices: usize) -> usize {
        self.random.between(0, choices as i64 - 1) as usize
    }
}
