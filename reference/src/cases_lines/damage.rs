//! Lines that are taken, with one byte replaced, left out or doubled, two neighbours swapped, or a byte put in.

use super::well_formed::{CRONS, RULES, TIMES, TRANSITIONS, ZONES};
use super::{contexts, Case};
use crate::answer_lines::Context;
use crate::random::Random;

/// Bytes of every class, those beside the classes, and those beside 20 to 7E.
const BYTES: &[u8] =
    b"\x00\x09\x0A\x0D\x1F\x20!*+,-./012345679:;<=@ADFHIMORSTUWXYZ[\\_adtz~\x7F\x80\xAB\xFF";

/// Bytes that are put in at every place.
const PUT_IN: &[u8] = b" 0,-+;S";

/// The lines that are damaged at every byte are those written down, each where it may stand.
pub fn everywhere() -> Vec<Case> {
    let mut all = Vec::new();
    let mut add = |lines: &[&str], context: Context| {
        for line in lines {
            let damaged = at_every_byte(line.as_bytes()).into_iter();
            all.extend(damaged.map(|line| Case::new(context, line)));
        }
    };
    let [after_zone, after_changes, after_lines] = contexts::of_others();
    add(&ZONES, contexts::nothing());
    add(&TRANSITIONS, contexts::after(3, 0, 60));
    add(&TIMES, after_lines);
    add(&CRONS, after_zone);
    add(&RULES, after_changes);
    all
}

pub fn at_every_byte(line: &[u8]) -> Vec<Vec<u8>> {
    let mut all = vec![line.to_vec()];
    all.extend(BYTES.iter().map(|&byte| [line, &[byte]].concat()));
    for at in 0..line.len() {
        let others = BYTES.iter().filter(|&&byte| byte != line[at]);
        all.extend(others.map(|&byte| replaced(line, at..at + 1, &[byte])));
        all.push(replaced(line, at..at + 1, &[]));
        all.push(replaced(line, at..at, &line[at..at + 1]));
        let put_in = PUT_IN.iter().filter(|&&byte| byte != line[at]);
        all.extend(put_in.map(|&byte| replaced(line, at..at, &[byte])));
        all.push(line[..at].to_vec());
        if let [first, second, ..] = line[at..] {
            all.push(replaced(line, at..at + 2, &[second, first]));
        }
    }
    all
}

fn replaced(line: &[u8], place: std::ops::Range<usize>, by: &[u8]) -> Vec<u8> {
    [&line[..place.start], by, &line[place.end..]].concat()
}

/// One to three such damages at any places.
pub fn damaged(line: &[u8], random: &mut Random) -> Vec<u8> {
    let mut line = line.to_vec();
    for _ in 0..random.between(1, 3) {
        line = once(&line, random);
    }
    line
}

fn once(line: &[u8], random: &mut Random) -> Vec<u8> {
    let at = random.between(0, line.len() as i64) as usize;
    let any = BYTES[random.between(0, BYTES.len() as i64 - 1) as usize];
    match (random.between(0, 5), &line[at..]) {
        (0, [_, ..]) => replaced(line, at..at + 1, &[]),
        (1, &[byte, ..]) => replaced(line, at..at, &[byte]),
        (2, &[first, second, ..]) => replaced(line, at..at + 2, &[second, first]),
        (3 | 4, [_, ..]) => replaced(line, at..at + 1, &[any]),
        _ => replaced(line, at..at, &[any]),
    }
}
