//! Buffers that are too small for a plan, just large enough, and larger.

use super::MOST_ROOM;
use crate::answer_sheets::request;
use crate::entries::compile;
use crate::random::Random;

/// No room, too little, a byte too few, just enough, and more; a small and a large one for a sheet that is refused.
pub fn about(sheet: &[u8], random: &mut Random) -> Vec<usize> {
    let (compiled, _) = compile(sheet, MOST_ROOM);
    let less = |most: usize, random: &mut Random| random.between(0, most as i64 - 1) as usize;
    let larger = MOST_ROOM - less(MOST_ROOM / 2, random);
    match compiled.length as usize {
        0 => vec![less(12, random), larger],
        length => {
            let less = less(length, random);
            let mut rooms = vec![
                0,
                1,
                less,
                length - 1,
                length,
                length + 1,
                larger,
                MOST_ROOM,
            ];
            rooms.dedup();
            rooms
        }
    }
}

/// Every room up to that of the plan and a few bytes more.
pub fn each(sheet: &[u8]) -> Vec<String> {
    let (compiled, _) = compile(sheet, MOST_ROOM);
    let rooms = 0..compiled.length as usize + 4;
    rooms.map(|room| request(room, sheet)).collect()
}
