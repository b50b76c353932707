//! Buffers that are too small for the frame's line, or just large enough.

use super::{contexts, well_formed, written_down, Case};
use crate::answer_lines::answer_in;
use crate::random::Random;

/// Every written-down line, where it may stand and where it may not, in buffers about as long as its frame's line; the well-formed
/// ones also in every shorter one.
pub fn all() -> Vec<Case> {
    let mut all = Vec::new();
    for context in [
        contexts::nothing(),
        contexts::zone(60),
        contexts::lines(contexts::zone(60)),
    ] {
        for line in written_down() {
            all.extend(about(&Case::new(context, line)));
        }
        for line in well_formed::lines() {
            all.extend(shorter(&Case::new(context, line)));
        }
    }
    all
}

/// No room, a byte too few, just enough, and a byte more.
fn about(case: &Case) -> Vec<Case> {
    let length = length_of(case);
    let mut rooms = vec![0, length - 1, length, length + 1];
    rooms.dedup();
    let cases = rooms.into_iter().map(|room| with_room(case, room));
    cases.collect()
}

fn shorter(case: &Case) -> Vec<Case> {
    let rooms = 0..length_of(case);
    rooms.map(|room| with_room(case, room)).collect()
}

/// One of those rooms.
pub fn any(case: &Case, random: &mut Random) -> Case {
    let length = length_of(case);
    let room = match random.between(0, 4) {
        0 => 0,
        1 => random.between(0, length),
        2 => length - 1,
        _ => length,
    };
    with_room(case, room)
}

/// Of the frame's line; 1 where the line is refused and none is written.
fn length_of(case: &Case) -> i64 {
    let frame = answer_in(&case.context, &case.line);
    frame.map_or(1, |frame| frame.len() as i64)
}

fn with_room(case: &Case, room: i64) -> Case {
    Case {
        room: Some(room),
        ..Case::new(case.context, case.line.clone())
    }
}
