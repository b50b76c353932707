//! Random lines, as generated and damaged.

use super::damage::damaged;
use super::rules::mixed;
use super::{contexts, rooms, Case};
use crate::answer_lines::Context;
use crate::generate::{
    cron_line, edge_lines, large_set_rule_line, offset_text, rule_line, with_seconds,
};
use crate::local::{written, LAST_MINUTE};
use crate::random::Random;
use crate::zone::LEAST_DISTANCE;

/// Damaged copies of each line.
const BYTES_DAMAGED: usize = 5;
const WORDS_DAMAGED: usize = 4;
const EDGES_DAMAGED: usize = 4;

/// Lines that are asked as they are.
const AS_GENERATED: [fn(&mut Random) -> String; 8] = [
    rule_line,
    rule_line,
    rule_line,
    rule_line,
    large_set_rule_line,
    large_set_rule_line,
    cron_line,
    cron_line,
];

/// No word, words that a line is made of, and numbers at both sides of limits.
const WORDS: &str = " * 0 1 5 6 7 12 13 23 24 31 32 59 60 999 1000 9999 10000 -0 +0 -1 +1 -5 -6 +31 -31 -32 0-0 1-31 \
    31-1 SU MO 6MO -5FR 0SA +TU mo DAILY WEEKLY MONTHLY YEARLY HOURLY FREQ COUNT UNTIL BYDAY BYMONTHDAY BYSETPOS BYMONTH \
    20000101T0000 20991231T2359 21000101T0000 20260105T060000 20260105T06000 20260105T060001 +1400";

/// A line of each kind in any place, each damaged.
pub fn round(random: &mut Random) -> Vec<Case> {
    let zone = format!("Z {}", offset_text(contexts::any_offset(random)));
    let extra = format!("D {}", written(random.between(0, LAST_MINUTE)));
    let excepted = format!("X {}", written(random.between(0, LAST_MINUTE)));
    let lines = [
        zone,
        extra,
        excepted,
        cron_line(random),
        cron_line(random),
        few(rule_line, random),
        few(rule_line, random),
        few(rule_line, random),
        few(large_set_rule_line, random),
    ];
    let mut all = transition(random);
    for line in lines {
        let line = with_seconds(&line, random);
        all.extend(about(&line, random));
    }
    for some_line in AS_GENERATED {
        let line = few(some_line, random);
        let case = Case::new(somewhere(random), with_seconds(&line, random));
        all.push(rooms::any(&case, random));
        all.push(case);
    }
    let counted = counted(random);
    all.push(Case::new(somewhere(random), counted));
    all.extend(damaged_edges(random));
    all
}

/// Lines at the edges, of which most are refused already, damaged.
fn damaged_edges(random: &mut Random) -> Vec<Case> {
    let edges = edge_lines();
    let mut all = Vec::new();
    for _ in 0..EDGES_DAMAGED {
        let line = &edges[random.between(0, edges.len() as i64 - 1) as usize];
        all.push(Case::new(
            contexts::any(random),
            damaged(line.as_bytes(), random),
        ));
        all.push(Case::new(contexts::any(random), with_a_word(line, random)));
    }
    all
}

/// A rule with any COUNT.
fn counted(random: &mut Random) -> String {
    loop {
        let line = match random.between(0, 3) {
            0 => large_set_rule_line(random),
            _ => rule_line(random),
        };
        if line.contains("COUNT=") {
            return line;
        }
    }
}

/// A rule that is not counted far, since its damaged copies are counted too.
fn few(some_line: fn(&mut Random) -> String, random: &mut Random) -> String {
    loop {
        let line = some_line(random);
        let value = line.split("COUNT=").nth(1).unwrap_or("0");
        let count = value.split(';').next().unwrap_or("0");
        if count.len() < 3 {
            return line;
        }
    }
}

fn about(line: &str, random: &mut Random) -> Vec<Case> {
    let mut all = vec![Case::new(contexts::any(random), line)];
    let place = |random: &mut Random| match (&line[..1], random.between(0, 7)) {
        (_, 0) => contexts::any(random),
        ("Z", _) => contexts::nothing(),
        _ => somewhere(random),
    };
    let in_place = Case::new(place(random), line);
    all.push(rooms::any(&in_place, random));
    for _ in 0..BYTES_DAMAGED {
        let line = damaged(line.as_bytes(), random);
        all.push(Case::new(place(random), line));
    }
    for _ in 0..WORDS_DAMAGED {
        let line = with_a_word(line, random);
        all.push(Case::new(place(random), line));
    }
    all
}

/// After a Z, some T or other lines.
fn somewhere(random: &mut Random) -> Context {
    match random.between(0, 2) {
        0 => contexts::zone(contexts::any_offset(random)),
        1 => contexts::any_zone(random),
        _ => contexts::lines(contexts::any_zone(random)),
    }
}

/// A transition at about the least distance and with about the greatest change, in its place, and damaged.
fn transition(random: &mut Random) -> Vec<Case> {
    let instant = random.between(0, LAST_MINUTE - 2 * LEAST_DISTANCE);
    let offset = contexts::any_offset(random);
    let next = instant + LEAST_DISTANCE + random.between(-2, 2 * LEAST_DISTANCE) / 2;
    let change = match random.between(0, 2) {
        0 => random.between(178, 182),
        _ => random.between(0, 180),
    };
    let change = change * (2 * random.between(0, 1) - 1);
    let line = format!("T {} {}", written(next), offset_text(offset + change));
    let line = with_seconds(&line, random);
    let context = contexts::after(contexts::any_changes(random), instant, offset);
    let mut all = about(&line, random);
    all.push(Case::new(context, line.clone()));
    all.push(Case::new(contexts::zone(offset), line.clone()));
    for _ in 0..BYTES_DAMAGED {
        all.push(Case::new(context, damaged(line.as_bytes(), random)));
    }
    all
}

/// A word of the line replaced by another, left out, doubled or put elsewhere.
fn with_a_word(line: &str, random: &mut Random) -> String {
    let separators = [' ', ';', ',', '=', '-'];
    let separator = separators[random.between(0, 4) as usize];
    let others: Vec<&str> = WORDS.split(' ').collect();
    let mut words: Vec<&str> = line.split(separator).collect();
    let at = random.between(0, words.len() as i64 - 1) as usize;
    let other = random.between(0, words.len() as i64 - 1) as usize;
    match random.between(0, 6) {
        0 => {
            words.remove(at);
        }
        1 => words.insert(other, words[at]),
        2 => words.swap(at, other),
        3 if separator == ';' => words = mixed(&words, random),
        _ => words[at] = others[random.between(0, others.len() as i64 - 1) as usize],
    }
    let separator = separator.to_string();
    words.join(&separator)
}
