//! Plans with something wrong, or with something that is just right, for each condition of "A plan is taken
//! exactly if".

use super::short_sheet;
use crate::entries::compile;
use crate::hex::{bytes_of, digits_of};
use crate::random::Random;
use crate::zone::OFFSETS;

/// The first local minute past the window, and the least number of four bytes.
const PAST: i64 = 52_596_000;
const LEAST: i64 = -2_147_483_648;

/// A field of the frames of a kind: kind, first byte, length, and numbers at both sides of its limits.
type Edges = (u8, usize, usize, &'static [i64]);

const EDGES: [Edges; 42] = [
    (0x01, 1, 2, &[840, 841, -720, -721, 0, -32_768]),
    (0x02, 1, 4, &[0, -1, PAST - 1, PAST, LEAST]),
    (0x02, 5, 2, &[840, 841, -720, -721, 32_767]),
    (0x03, 1, 8, &[0, 1, 1 << 59, 1 << 60, (1 << 60) - 1, -1]),
    (0x03, 9, 4, &[0, 1, 1 << 23, 1 << 24, (1 << 24) - 1, -1]),
    (0x03, 13, 4, &[0, 1, 2, 1 << 31, -2, -1]),
    (0x03, 17, 2, &[0, 1, 2, 1 << 12, 1 << 13, 0x1FFE, -1]),
    (0x03, 19, 1, &[0, 1, 0x40, 0x7F, 0x80, 0xFF]),
    (0x03, 20, 1, &[0, 1, 2, 3, 4, 5, 6, 7, 8, 15, 0x87]),
    (0x04, 1, 1, &[0, 1, 2, 3, 4, 5, 0xFF]),
    (0x04, 2, 2, &[0, 1, 2, 999, 1_000, -1]),
    (0x04, 4, 4, &[0, PAST - 1, PAST, LEAST]),
    (0x04, 8, 4, &[0, PAST - 1, PAST, LEAST]),
    (0x04, 12, 1, &[0, 0x7F, 0x80, 0xFF]),
    (0x04, 13, 4, &[0, 1, 2, -2, -1]),
    (0x04, 17, 4, &[0, 1, 2, -2, -1]),
    (0x04, 21, 1, &[0, 1, 0x7F, 0x80]),
    (0x04, 22, 1, &[0x7F, 0x80]),
    (0x04, 23, 1, &[0x7F, 0x80]),
    (0x04, 24, 1, &[0x7F, 0x80]),
    (0x04, 25, 1, &[0x7F, 0x80]),
    (0x04, 26, 1, &[0, 1, 0x7F, 0x80]),
    (0x04, 27, 1, &[0x7F, 0x80]),
    (0x04, 28, 1, &[0x7F, 0x80]),
    (0x04, 29, 1, &[0x7F, 0x80]),
    (0x04, 30, 1, &[0x7F, 0x80]),
    (0x04, 31, 4, &[0, 1, 2, -2, -1]),
    (0x04, 35, 4, &[0, 1, 2, -2, -1]),
    (0x04, 39, 2, &[0, 1, 2, 1 << 12, 1 << 13, 0x1FFE, -1]),
    // groups of fields together
    (0x04, 12, 27, &[0]),
    (0x04, 12, 29, &[0]),
    (0x04, 12, 9, &[0]),
    (0x04, 13, 8, &[0]),
    (0x04, 13, 26, &[0]),
    (0x04, 13, 28, &[0]),
    (0x04, 21, 10, &[0]),
    (0x04, 21, 18, &[0]),
    (0x04, 31, 8, &[0]),
    (0x04, 31, 10, &[0]),
    (0x05, 1, 4, &[0, PAST - 1, PAST, LEAST, -1]),
    (0x06, 1, 4, &[0, PAST - 1, PAST, LEAST, -1]),
    (0xFF, 1, 1, &[0, 1, 64, 0xFF]),
];

/// A plan for each number of the fields above.
pub fn plans_at_the_edges(random: &mut Random) -> Vec<Vec<u8>> {
    let mut plans = Vec::new();
    for (kind, at, length, numbers) in EDGES {
        for &number in numbers {
            let (mut frames, chosen) = frames_with(kind, random);
            set(&mut frames[chosen], at, length, number);
            plans.push(text_of(&frames));
        }
    }
    plans
}

/// A plan of a sort: as compiled, or with its frames or its text changed.
pub fn bad_plan(sort: u64, random: &mut Random) -> Vec<u8> {
    match sort {
        0 => text_of(&some_frames(random)),
        1 => with_moved_rule(random),
        2 => with_bits_changed(some_frames(random), random),
        3 => with_another_length(some_frames(random), random),
        4 => with_frames_moved(some_frames(random), random),
        5 => with_many_frames(random),
        6 => at_the_zone_limits(random),
        _ => with_text_changed(&some_frames(random), random),
    }
}

/// A plan with one thing changed: a field that is set to an edge, bits, a length, the order, or the text.
pub fn damaged(plan: &str, random: &mut Random) -> Vec<u8> {
    let frames = frames_of(plan);
    match random.between(0, 5) {
        0 | 1 => with_an_edge(frames, random),
        2 => with_bits_changed(frames, random),
        3 => with_another_length(frames, random),
        4 => with_frames_moved(frames, random),
        _ => with_text_changed(&frames, random),
    }
}

/// A plan with each field of each frame at each of its edges, and with each bit of each frame changed.
pub fn damaged_everywhere(plan: &str) -> Vec<Vec<u8>> {
    let frames = frames_of(plan);
    let mut plans = Vec::new();
    for (place, frame) in frames.iter().enumerate() {
        let mut add = |changed: Vec<u8>| {
            let mut frames = frames.clone();
            frames[place] = changed;
            plans.push(text_of(&frames));
        };
        for (_, at, length, numbers) in EDGES.iter().filter(|edges| edges.0 == frame[0]) {
            for &number in *numbers {
                let mut changed = frame.clone();
                set(&mut changed, *at, *length, number);
                add(changed);
            }
        }
        for bit in 0..8 * frame.len() {
            let mut changed = frame.clone();
            changed[bit / 8] ^= 0x80 >> (bit % 8);
            add(changed);
        }
    }
    plans
}

/// The plan with another month mask in its last rule frame: each bit alone, added and changed; none, all months and all bits.
pub fn with_month_masks(plan: &str) -> Vec<Vec<u8>> {
    let frames = frames_of(plan);
    let chosen = frames.iter().rposition(|frame| frame[0] == 0x04);
    let chosen = chosen.expect("a plan with a rule");
    let given = i64::from(frames[chosen][39]) << 8 | i64::from(frames[chosen][40]);
    let bits = (0..16).map(|bit| 1 << bit);
    let masks = bits.flat_map(|bit| [bit, given | bit, given ^ bit]);
    let changed = |mask| {
        let mut frames = frames.clone();
        set(&mut frames[chosen], 39, 2, mask);
        text_of(&frames)
    };
    masks.chain([0, 0x1FFE, 0xFFFF]).map(changed).collect()
}

/// Days, months and weekdays of a cron frame: first byte, length, a full mask and one that is not.
const RESTRICTED: [(usize, usize, [i64; 2]); 3] = [
    (13, 4, [-2, 1 << 13]),
    (17, 2, [0x1FFE, 1 << 6]),
    (19, 1, [0x7F, 1 << 5]),
];

/// The plan with other flags in its last cron frame, 0 to 8 and more, each with every choice of full masks.
pub fn with_flags(plan: &str) -> Vec<Vec<u8>> {
    let mut frames = frames_of(plan);
    let chosen = frames.iter().rposition(|frame| frame[0] == 0x03);
    let chosen = chosen.expect("a plan with a cron line");
    let mut plans = Vec::new();
    for flags in (0..=8).chain([15, 16, 32, 64, 128, 255]) {
        for choice in 0..8 {
            for (place, (at, length, masks)) in RESTRICTED.into_iter().enumerate() {
                let mask = masks[choice >> place & 1];
                set(&mut frames[chosen], at, length, mask);
            }
            set(&mut frames[chosen], 20, 1, flags);
            plans.push(text_of(&frames));
        }
    }
    plans
}

/// The plan with each of its rule frames cut to so many bytes, one at a time.
pub fn with_short_rules(plan: &str, length: usize) -> Vec<Vec<u8>> {
    let frames = frames_of(plan);
    let places = (0..frames.len()).filter(|&place| frames[place][0] == 0x04);
    let cut = |place: usize| {
        let mut frames = frames.clone();
        frames[place].truncate(length);
        text_of(&frames)
    };
    places.map(cut).collect()
}

/// A field of any frame at one of its edges.
fn with_an_edge(mut frames: Vec<Vec<u8>>, random: &mut Random) -> Vec<u8> {
    let chosen = any_place(&frames, random);
    let frame = &mut frames[chosen];
    let edges: Vec<&Edges> = EDGES.iter().filter(|edges| edges.0 == frame[0]).collect();
    let &(_, at, length, numbers) = edges[any_place(&edges, random)];
    set(frame, at, length, numbers[any_place(numbers, random)]);
    text_of(&frames)
}

/// The frames of a compiled plan, the end frame among them.
fn some_frames(random: &mut Random) -> Vec<Vec<u8>> {
    let (_, text) = compile(short_sheet(random).as_bytes(), usize::MAX);
    frames_of(&text)
}

fn frames_of(plan: &str) -> Vec<Vec<u8>> {
    plan.lines().map(bytes_of).collect()
}

/// Frames of which one is of the kind, and its place.
fn frames_with(kind: u8, random: &mut Random) -> (Vec<Vec<u8>>, usize) {
    loop {
        let frames = some_frames(random);
        if let Some(chosen) = frames.iter().rposition(|frame| frame[0] == kind) {
            return (frames, chosen);
        }
    }
}

fn text_of(frames: &[Vec<u8>]) -> Vec<u8> {
    let lines = frames.iter().map(|frame| digits_of(frame) + "\n");
    lines.collect::<String>().into_bytes()
}

fn any_place<Item>(items: &[Item], random: &mut Random) -> usize {
    random.between(0, items.len() as i64 - 1) as usize
}

/// The number, big-endian, in the field; a longer field than a number has is filled with its sign.
fn set(frame: &mut [u8], at: usize, length: usize, number: i64) {
    for place in 0..length {
        let shift = (8 * (length - 1 - place)).min(63);
        frame[at + place] = (number >> shift) as u8;
    }
}

fn four_bytes(frame: &[u8], at: usize) -> i64 {
    let bytes = frame[at..at + 4].iter();
    bytes.fold(0, |number, &byte| number << 8 | i64::from(byte))
}

/// A rule frame whose start or last is moved.
fn with_moved_rule(random: &mut Random) -> Vec<u8> {
    let (mut frames, chosen) = frames_with(0x04, random);
    let frame = &mut frames[chosen];
    let (start, last) = (four_bytes(frame, 4), four_bytes(frame, 8));
    let moves = [-43_200, -10_080, -1_440, -1, 1, 1_440, 10_080, 43_200];
    let near_start = [-1, 0, 1, 1_439, 1_440, 100_000];
    match random.between(0, 3) {
        0 => set(frame, 4, 4, start + moves[any_place(&moves, random)]),
        1 => set(frame, 4, 4, last + random.between(0, 1)),
        _ => set(
            frame,
            8,
            4,
            start + near_start[any_place(&near_start, random)],
        ),
    }
    text_of(&frames)
}

fn with_bits_changed(mut frames: Vec<Vec<u8>>, random: &mut Random) -> Vec<u8> {
    for _ in 0..random.between(1, 2) {
        let chosen = any_place(&frames, random);
        let byte = any_place(&frames[chosen], random);
        frames[chosen][byte] ^= 1 << random.between(0, 7);
    }
    text_of(&frames)
}

/// "the frames are of these kinds and lengths".
fn with_another_length(mut frames: Vec<Vec<u8>>, random: &mut Random) -> Vec<u8> {
    let chosen = any_place(&frames, random);
    let frame = &mut frames[chosen];
    match random.between(0, 5) {
        0 => frame.push(0),
        1 => frame.truncate(frame.len() - 1),
        2 => frame.truncate(1),
        3 => frame.clear(),
        4 => frame.truncate(frame.len() - 2), // a rule frame is then as it was without its month mask
        _ => frame[0] = [0x00, 0x01, 0x02, 0x05, 0x06, 0x07, 0xFE][random.between(0, 6) as usize],
    }
    text_of(&frames)
}

/// "01 first, then up to 32 of 02 [..], then others", "nothing after it".
fn with_frames_moved(mut frames: Vec<Vec<u8>>, random: &mut Random) -> Vec<u8> {
    let (from, to) = (any_place(&frames, random), any_place(&frames, random));
    match random.between(0, 4) {
        0 => frames.swap(from, to),
        1 => frames.insert(to, frames[from].clone()),
        2 => frames.truncate(from),
        3 => frames.push(frames[from].clone()),
        _ => {
            frames.remove(from);
        }
    }
    if random.between(0, 1) == 0 {
        set_right_number(&mut frames);
    }
    text_of(&frames)
}

/// The last frame becomes an end frame whose number is right.
fn set_right_number(frames: &mut Vec<Vec<u8>>) {
    if frames.last().map_or(false, |frame| frame[0] == 0xFF) {
        frames.pop();
    }
    frames.push(vec![0xFF, frames.len() as u8]);
}

/// About 64 frames, or about 32 transitions.
fn with_many_frames(random: &mut Random) -> Vec<u8> {
    let mut frames = vec![vec![0x01, 0x00, 0x00]];
    match random.between(0, 1) {
        0 => frames.resize(random.between(63, 66) as usize, vec![0x05, 0, 0, 0, 0]),
        _ => frames.extend((1..=random.between(31, 34)).map(|n| transition(n * 2_880, n % 2 * 60))),
    }
    set_right_number(&mut frames);
    text_of(&frames)
}

fn transition(instant: i64, offset: i64) -> Vec<u8> {
    let mut frame = vec![0x02; 7];
    set(&mut frame, 1, 4, instant);
    set(&mut frame, 5, 2, offset);
    frame
}

/// Changes and distances at both sides of the zone limits.
const CHANGES: [i64; 7] = [0, 1, -1, 180, -180, 181, -181];
const DISTANCES: [i64; 5] = [2_879, 2_880, 2_881, 0, -1];

/// Two transitions, at about the least distance and with about the greatest change.
fn at_the_zone_limits(random: &mut Random) -> Vec<u8> {
    let instant = random.between(0, PAST - 3_000);
    let distance = DISTANCES[any_place(&DISTANCES, random)];
    let first = CHANGES[any_place(&CHANGES, random)];
    let second = CHANGES[any_place(&CHANGES, random)];
    two_transitions(0, instant, distance, [first, second])
}

/// Every pair of changes at every distance, from the middle and from both ends of the offsets.
pub fn plans_at_the_zone_limits() -> Vec<Vec<u8>> {
    let mut plans = Vec::new();
    for offset in [0, *OFFSETS.start(), *OFFSETS.end()] {
        for distance in DISTANCES {
            for first in CHANGES {
                let both = CHANGES.map(|second| [first, second]);
                plans.extend(both.map(|changes| two_transitions(offset, 9_999, distance, changes)));
            }
        }
    }
    plans
}

fn two_transitions(offset: i64, instant: i64, distance: i64, changes: [i64; 2]) -> Vec<u8> {
    let mut zone = vec![0x01; 3];
    set(&mut zone, 1, 2, offset);
    let first = transition(instant, offset + changes[0]);
    let second = transition(instant + distance, offset + changes[0] + changes[1]);
    let mut frames = vec![zone, first, second];
    set_right_number(&mut frames);
    text_of(&frames)
}

/// "One frame a line: upper-case hex digits, LF."
fn with_text_changed(frames: &[Vec<u8>], random: &mut Random) -> Vec<u8> {
    let mut text = text_of(frames);
    let place = any_place(&text, random);
    let others = b"afgG:@/` -\r\n\x000Ff\xC3x";
    let other = others[any_place(others, random)];
    match random.between(0, 7) {
        0 => text[place] = other,
        1 => text.insert(place, other),
        2 => text.push(other),
        3 => text.truncate(place),
        4 => {
            text.pop();
        }
        5 => text = text.to_ascii_lowercase(),
        6 => text = digits_with_cr(&text),
        _ => {
            text.remove(place);
        }
    }
    text
}

fn digits_with_cr(text: &[u8]) -> Vec<u8> {
    let lines = text.split_inclusive(|&byte| byte == b'\n');
    let ends = lines.map(|line| [&line[..line.len() - 1], b"\r\n"].concat());
    ends.collect::<Vec<_>>().concat()
}
