//! The suite `zones`: local minutes and instants around the transitions of zones that are taken; and zones at both sides of the limits,
//! as plans, for the suite `plans`.

use crate::compile::plan_text;
use crate::local::LAST_MINUTE;
use crate::plan;
use crate::random::Random;
use crate::sheet::line::Line;
use crate::zone::{Transition, Zone, MOST_TRANSITIONS, OFFSETS};

/// Zones for `--times 1`.
const ZONES: u64 = 150;

/// "every local minute within 400 of each transition".
const NEAR: i64 = 400;

/// Instants at both ends of those that a transition may have, and those just outside.
const END_INSTANTS: [i64; 6] = [-1, 0, 1, LAST_MINUTE - 1, LAST_MINUTE, LAST_MINUTE + 1];

/// Changes of offset at both sides of their limits.
const END_CHANGES: [i64; 7] = [-181, -180, -1, 0, 1, 180, 181];

pub fn requests(seed: u64, times: u64) -> Box<dyn Iterator<Item = String>> {
    let taken: Vec<Zone> = zones_at_the_ends().into_iter().filter(is_taken).collect();
    assert!(!taken.is_empty(), "no zone at the ends is taken");
    let fixed = taken.into_iter().flat_map(at_the_ends);
    let mut random = Random::new(seed);
    let zones = times.saturating_mul(ZONES);
    let rounds = (0..zones).flat_map(move |_| about_zone(&mut random));
    Box::new(fixed.chain(rounds))
}

/// Zones at the ends, and generated ones with one limit broken: what the load check says of them is compared.
pub fn plans_of_zones(random: &mut Random, times: u64) -> Vec<String> {
    let ends = zones_at_the_ends();
    let generated = times.saturating_mul(ZONES);
    let broken: Vec<Zone> = (0..generated)
        .map(|_| broken(random_zone(random), random))
        .collect();
    ends.iter().chain(&broken).map(plan_of_zone).collect()
}

fn is_taken(zone: &Zone) -> bool {
    plan::read(plan_of_zone(zone).as_bytes()).is_ok()
}

fn plan_of_zone(zone: &Zone) -> String {
    let transitions = zone.transitions.iter().cloned().map(Line::Transition);
    let lines: Vec<Line> = std::iter::once(Line::Zone(zone.first_offset))
        .chain(transitions)
        .collect();
    plan_text(&lines)
}

/// Zones without a transition, with one at an end of the window and with one at each end, from offsets at both
/// ends of theirs and just outside. Many are not taken.
fn zones_at_the_ends() -> Vec<Zone> {
    let (least, most) = (*OFFSETS.start(), *OFFSETS.end());
    let mut zones = Vec::new();
    for first in [least - 1, least, 0, most, most + 1] {
        zones.push(zone_of(first, &[]));
        for other in END_CHANGES.map(|change| first + change) {
            zones.extend(END_INSTANTS.map(|instant| zone_of(first, &[(instant, other)])));
            zones.push(zone_of(first, &[(0, other), (LAST_MINUTE, first)]));
        }
    }
    for distance in [2_879, 2_880] {
        zones.push(zone_of(0, &[(0, 60), (distance, 120)]));
        let last = LAST_MINUTE - distance;
        zones.push(zone_of(0, &[(last, 60), (LAST_MINUTE, 120)]));
    }
    zones
}

/// A zone of a first offset, and instants with their new offsets.
fn zone_of(first_offset: i64, transitions: &[(i64, i64)]) -> Zone {
    let of = |&(instant, offset): &(i64, i64)| Transition { instant, offset };
    Zone {
        first_offset,
        transitions: transitions.iter().map(of).collect(),
    }
}

/// The local minutes and the instants at both ends of the window, a day of each and some outside.
fn at_the_ends(zone: Zone) -> Vec<String> {
    vec![
        request("locals", &zone, -2, 1_442),
        request("locals", &zone, LAST_MINUTE - 1_440, 1_443),
        request("offsets", &zone, -1_440, 1_443),
        request("offsets", &zone, LAST_MINUTE - 2, 1_443),
    ]
}

/// A zone, asked around each transition and both ends of the window.
fn about_zone(random: &mut Random) -> Vec<String> {
    let zone = random_zone(random);
    let mut all = vec![
        request("locals", &zone, -NEAR, 2 * NEAR),
        request("locals", &zone, LAST_MINUTE - NEAR, 2 * NEAR),
        request("offsets", &zone, -1_440, 1_440),
    ];
    for transition in &zone.transitions {
        all.push(request(
            "locals",
            &zone,
            transition.instant - 840 - NEAR,
            1_560 + 2 * NEAR,
        ));
        all.push(request("offsets", &zone, transition.instant - 2, 5));
    }
    all
}

fn request(name: &str, zone: &Zone, from: i64, count: i64) -> String {
    let mut words = vec![
        name.to_string(),
        zone.first_offset.to_string(),
        zone.transitions.len().to_string(),
    ];
    for transition in &zone.transitions {
        words.push(transition.instant.to_string());
        words.push(transition.offset.to_string());
    }
    words.push(from.to_string());
    words.push(count.to_string());
    words.join(" ")
}

fn random_zone(random: &mut Random) -> Zone {
    let mut zone = Zone {
        first_offset: random.between(*OFFSETS.start(), *OFFSETS.end()),
        transitions: Vec::new(),
    };
    let wanted = random.between(0, MOST_TRANSITIONS as i64);
    let mut instant = first_instant(random);
    for _ in 0..wanted {
        let before = zone
            .transitions
            .last()
            .map_or(zone.first_offset, |last| last.offset);
        let next = Transition {
            instant,
            offset: next_offset(before, random),
        };
        if next.instant > LAST_MINUTE {
            break;
        }
        zone.transitions.push(next);
        instant += distance(random);
    }
    zone
}

/// Often at an end of the window, or so late that the next ones reach its other end.
fn first_instant(random: &mut Random) -> i64 {
    match random.between(0, 3) {
        0 => random.between(0, 1_000),
        1 => LAST_MINUTE - 2_880 * random.between(0, 31),
        _ => random.between(0, LAST_MINUTE),
    }
}

fn next_offset(before: i64, random: &mut Random) -> i64 {
    let change = match random.between(0, 2) {
        0 => 180,
        1 => 1,
        _ => random.between(1, 180),
    };
    let sign = if random.between(0, 1) == 0 { 1 } else { -1 };
    let next = before + sign * change;
    if OFFSETS.contains(&next) {
        next
    } else {
        before - sign * change
    }
}

fn distance(random: &mut Random) -> i64 {
    match random.between(0, 2) {
        0 => 2_880,
        1 => random.between(2_880, 4_320),
        _ => random.between(100_000, 400_000),
    }
}

/// One step over a limit: the change, the distance, a range, or one transition too many.
fn broken(mut zone: Zone, random: &mut Random) -> Zone {
    let kind = random.between(0, 5);
    let count = zone.transitions.len() as i64;
    if count < 2 || kind == 0 {
        zone.first_offset =
            [*OFFSETS.start() - 1, *OFFSETS.end() + 1][random.between(0, 1) as usize];
        return zone;
    }
    let at = random.between(1, count - 1) as usize;
    let before = zone.transitions[at - 1].clone();
    match kind {
        1 => zone.transitions[at].offset = before.offset + 181,
        2 => zone.transitions[at].offset = before.offset,
        3 => zone.transitions[at].instant = before.instant + 2_879,
        4 => zone.transitions[at].instant = LAST_MINUTE + 1,
        _ => one_too_many(&mut zone),
    }
    zone
}

fn one_too_many(zone: &mut Zone) {
    zone.transitions.truncate(1);
    zone.transitions[0].instant = 0;
    while zone.transitions.len() <= MOST_TRANSITIONS {
        let last = zone.transitions[zone.transitions.len() - 1].clone();
        let back = zone.transitions.len() % 2 == 1;
        let offset = if back {
            zone.first_offset
        } else {
            zone.transitions[0].offset
        };
        zone.transitions.push(Transition {
            instant: last.instant + 2_880,
            offset,
        });
    }
}
