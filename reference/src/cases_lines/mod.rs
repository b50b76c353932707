//! The suite `lines`: one sheet line and what stands before it.

mod contexts;
mod limits;
mod rooms;
mod rounds;
mod rules;
mod well_formed;
mod years;

pub mod damage;
pub mod lengths;
pub mod ranks;

use crate::answer_lines::{request, Context};
use crate::generate::edge_lines;
use crate::random::Random;

/// Rounds for `--times 1`.
const ROUNDS: u64 = 1_500;

/// Room for every frame's line, of which the longest has 83 bytes, and the most that the driver lends.
const LEAST_ROOM: i64 = 84;
const MOST_ROOM: i64 = 4_096;

/// A line, without LF, and what stands before it; and the length of the buffer, any that suffices where none is said.
pub struct Case {
    pub context: Context,
    pub line: Vec<u8>,
    pub room: Option<i64>,
}

impl Case {
    fn new(context: Context, line: impl Into<Vec<u8>>) -> Case {
        Case {
            context,
            line: line.into(),
            room: None,
        }
    }
}

pub fn requests(seed: u64, times: u64) -> Box<dyn Iterator<Item = String>> {
    let mut rooms = Random::new(!seed);
    let asked = move |case: Case| {
        let room = case.room.unwrap_or_else(|| room(&mut rooms));
        request(&case.context, room, &case.line)
    };
    Box::new(cases(seed, times).map(asked))
}

/// All cases; with `times` 0 all but the rounds of random ones.
pub fn cases(seed: u64, times: u64) -> impl Iterator<Item = Case> {
    let mut random = Random::new(seed);
    let fixed = [
        everywhere(),
        damage::everywhere(),
        rules::all(&mut random),
        years::all(),
        limits::all(),
        lengths::all(),
        ranks::all(&mut random),
        rooms::all(),
    ];
    let rounds = times.saturating_mul(ROUNDS);
    let rounds = (0..rounds).flat_map(move |_| rounds::round(&mut random));
    fixed.into_iter().flatten().chain(rounds)
}

fn room(random: &mut Random) -> i64 {
    match random.between(0, 3) {
        0 => LEAST_ROOM,
        1 => random.between(LEAST_ROOM, 2 * LEAST_ROOM),
        2 => random.between(LEAST_ROOM, MOST_ROOM),
        _ => MOST_ROOM,
    }
}

/// Every written-down line after everything that may stand before one.
fn everywhere() -> Vec<Case> {
    let lines = written_down().into_iter();
    lines.flat_map(|line| after_all(&line)).collect()
}

fn written_down() -> Vec<String> {
    let lines = well_formed::lines().into_iter();
    lines.chain(edge_lines()).collect()
}

fn after_all(line: &str) -> Vec<Case> {
    let all = contexts::all().into_iter();
    all.map(|context| Case::new(context, line)).collect()
}
