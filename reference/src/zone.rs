//! Wall clock to instant.

use std::iter;
use std::ops::RangeInclusive;

/// "from -720 minutes to +840 minutes in all".
pub const OFFSETS: RangeInclusive<i64> = -720..=840;

/// "transition lines, at most 32".
pub const MOST_TRANSITIONS: usize = 32;

/// "each at least 2,880 minutes after the one before".
pub const LEAST_DISTANCE: i64 = 2_880;

/// "the new offset differs from the old by 1 to 180 minutes".
const CHANGES: RangeInclusive<i64> = 1..=180;

#[derive(Clone, Debug, PartialEq, Eq)]
pub struct Transition {
    pub instant: i64,
    pub offset: i64,
}

#[derive(Clone, Debug, Default, PartialEq, Eq)]
pub struct Zone {
    /// "offset before the first transition".
    pub first_offset: i64,
    pub transitions: Vec<Transition>,
}

impl Zone {
    /// "The offset at an instant is that of the last transition at or before it, else Z's."
    pub fn offset_at(&self, instant: i64) -> i64 {
        self.transitions
            .iter()
            .rfind(|transition| transition.instant <= instant)
            .map_or(self.first_offset, |transition| transition.offset)
    }

    /// "A local minute m becomes the least instant i with i + offset(i) = m. If none exists, m lies in the
    /// gap of one transition". Such an instant is m less one of the zone's offsets, so these are tried.
    pub fn instant_of(&self, minute: i64) -> i64 {
        self.offsets()
            .map(|offset| minute - offset)
            .filter(|&instant| instant + self.offset_at(instant) == minute)
            .min()
            .or_else(|| self.past_the_gap(minute))
            .expect("a minute that no instant shows lies in a gap")
    }

    /// "and becomes m minus the offset *before* it".
    fn past_the_gap(&self, minute: i64) -> Option<i64> {
        let offsets_before = self.offsets();
        self.transitions
            .iter()
            .zip(offsets_before)
            .find(|(transition, before)| {
                let gap = transition.instant + before..transition.instant + transition.offset;
                gap.contains(&minute)
            })
            .map(|(_, before)| minute - before)
    }

    /// All offsets in order: the first, then that of each transition.
    fn offsets(&self) -> impl Iterator<Item = i64> + '_ {
        let later = self.transitions.iter().map(|transition| transition.offset);
        iter::once(self.first_offset).chain(later)
    }

    /// The transition limits, for one more transition. The first one is held to no distance.
    pub fn allows(&self, next: &Transition) -> bool {
        let (distance_holds, old_offset) = match self.transitions.last() {
            Some(last) => (next.instant - last.instant >= LEAST_DISTANCE, last.offset),
            None => (true, self.first_offset),
        };
        distance_holds && CHANGES.contains(&(next.offset - old_offset).abs())
    }
}
