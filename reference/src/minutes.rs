//! A set of local minutes, one bit for each minute of the window.

use std::ops::Range;

use crate::local::{is_local_minute, LAST_MINUTE};

const WORD: i64 = 64;

#[derive(PartialEq, Eq)]
pub struct MinuteSet {
    words: Vec<u64>,
}

impl MinuteSet {
    pub fn empty() -> MinuteSet {
        MinuteSet {
            words: vec![0; (LAST_MINUTE / WORD + 1) as usize],
        }
    }

    /// Adds a local minute; what lies outside the window is dropped.
    pub fn add(&mut self, minute: i64) {
        if is_local_minute(minute) {
            self.words[(minute / WORD) as usize] |= 1 << (minute % WORD);
        }
    }

    pub fn take_away(&mut self, minute: i64) {
        if is_local_minute(minute) {
            self.words[(minute / WORD) as usize] &= !(1 << (minute % WORD));
        }
    }

    pub fn holds(&self, minute: i64) -> bool {
        is_local_minute(minute) && self.words[(minute / WORD) as usize] >> (minute % WORD) & 1 == 1
    }

    /// The held minutes from the given one on, rising.
    pub fn rising_from(&self, from: i64) -> impl Iterator<Item = i64> + '_ {
        let from = from.clamp(0, LAST_MINUTE + 1);
        let words = self.words.iter().enumerate().skip((from / WORD) as usize);
        words
            .filter(|(_, bits)| **bits != 0)
            .flat_map(|(word, _)| minutes_of(word))
            .filter(move |&minute| minute >= from && self.holds(minute))
    }

    /// The held minutes from the given one down, falling.
    pub fn falling_from(&self, from: i64) -> impl Iterator<Item = i64> + '_ {
        let from = from.clamp(-1, LAST_MINUTE);
        let words = self.words[..(from / WORD + 1) as usize].iter().enumerate();
        words
            .rev()
            .filter(|(_, bits)| **bits != 0)
            .flat_map(|(word, _)| minutes_of(word).rev())
            .filter(move |&minute| minute <= from && self.holds(minute))
    }
}

fn minutes_of(word: usize) -> Range<i64> {
    let first = word as i64 * WORD;
    first..first + WORD
}
