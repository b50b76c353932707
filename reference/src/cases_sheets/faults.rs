//! A bad line at every place of a sheet, alone and with others after it: "the first bad line decides".

use crate::cases_lines::ranks::{case, faults_of, pairs, Fault, NUMBERS};
use crate::generate::offset_text;
use crate::local::written;
use crate::random::Random;
use crate::zone::{LEAST_DISTANCE, MOST_TRANSITIONS};

const MOST_LINES: usize = 64;
const OTHERS: [char; 4] = ['C', 'R', 'D', 'X'];

/// A sheet of 64 lines with no transitions, and with as many as can be: each line replaced by a bad one of each number.
pub fn all(random: &mut Random) -> Vec<Vec<u8>> {
    let mut all = in_one_line();
    for transitions in [0, MOST_TRANSITIONS] {
        let good = good_lines(transitions);
        all.push(joined(&good));
        for place in 0..MOST_LINES {
            for number in NUMBERS {
                let mut lines = good.clone();
                lines[place] = bad_line(number, place, transitions, random);
                all.extend(with_bad_line(&lines, place));
                let later = place + chosen(MOST_LINES - place, random);
                let other = NUMBERS[chosen(NUMBERS.len(), random)];
                if later > place {
                    lines[later] = bad_line(other, later, transitions, random);
                    all.push(joined(&lines));
                }
            }
        }
    }
    all
}

/// The whole sheet, and the one that ends with the bad line, with an LF and without.
fn with_bad_line(lines: &[Vec<u8>], place: usize) -> [Vec<u8>; 3] {
    let ended = joined(&lines[..=place]);
    let without = ended[..ended.len() - 1].to_vec();
    [joined(lines), ended, without]
}

/// 64 lines that are taken: a zone with so many transitions, each as near to the one before as can be, then the others.
fn good_lines(transitions: usize) -> Vec<Vec<u8>> {
    let zone = [case('Z', &[]).line].into_iter();
    let changes = (1..=transitions as i64).map(|k| transition(LEAST_DISTANCE * k, offset_after(k)));
    let others = OTHERS.map(|tag| case(tag, &[]).line);
    let all = zone.chain(changes).chain(others.into_iter().cycle());
    all.take(MOST_LINES).collect()
}

fn transition(instant: i64, offset: i64) -> Vec<u8> {
    format!("T {} {}", written(instant), offset_text(offset)).into_bytes()
}

/// The offset after so many transitions.
fn offset_after(transitions: i64) -> i64 {
    60 + 60 * (transitions % 2)
}

/// A line that is refused by this number if it can be at this place: 6 and 8 are of an R, which may not be the first line, 7 is
/// of a T.
fn bad_line(number: u64, place: usize, transitions: usize, random: &mut Random) -> Vec<u8> {
    let tag = match (number, place) {
        (7, _) => return bad_transition(place as i64, random),
        (4, 0) | (6 | 8, _) => 'R',
        (4, _) if place > transitions.max(1) && chosen(2, random) == 0 => 'T',
        (4, _) | (_, 0) => 'Z',
        _ if place <= transitions && chosen(2, random) == 0 => 'T',
        _ => OTHERS[chosen(OTHERS.len(), random)],
    };
    let faults = faults_of(tag).into_iter();
    let faults: Vec<Fault> = faults.filter(|fault| fault.0 == number).collect();
    match number {
        4 => case(tag, &[]).line, // its place is the fault
        _ => case(tag, &[faults[chosen(faults.len(), random)]]).line,
    }
}

/// Refusal 7: the offset before it, one too far from that, or a distance that is a minute too small.
fn bad_transition(place: i64, random: &mut Random) -> Vec<u8> {
    let (instant, before) = (LEAST_DISTANCE * place, offset_after(place - 1));
    match random.between(0, 3) {
        0 => transition(instant, before),
        1 => transition(instant, before + 181),
        2 => transition(instant, before - 181),
        _ => transition(instant - 1, offset_after(place)),
    }
}

fn chosen(choices: usize, random: &mut Random) -> usize {
    random.between(0, choices as i64 - 1) as usize
}

/// Every two faults of different numbers in one line, alone in a sheet where 4 is one of them, else after a zone.
fn in_one_line() -> Vec<Vec<u8>> {
    let mut all = Vec::new();
    for tag in OTHERS {
        for (one, other) in pairs(tag) {
            let line = case(tag, &[one, other]).line;
            all.push(match [one.0, other.0].contains(&4) {
                true => joined(&[line]),
                false => joined(&[case('Z', &[]).line, line]),
            });
        }
    }
    all
}

fn joined(lines: &[Vec<u8>]) -> Vec<u8> {
    let ended = lines.iter().map(|line| [line.as_slice(), b"\n"].concat());
    ended.collect::<Vec<_>>().concat()
}
