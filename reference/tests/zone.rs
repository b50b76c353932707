//! Wall clock to instant: against a search over every instant that could show the minute.

use reference::generate::{near_a_transition, zone_lines};
use reference::local::{FIRST_MINUTE, LAST_MINUTE};
use reference::random::Random;
use reference::sheet::{read, zone_of};
use reference::zone::{Transition, Zone};

/// "the least instant i with i + offset(i) = m", every instant from m - 840 to m + 720 being tried; else the
/// one transition in whose gap m lies.
fn plainly(zone: &Zone, minute: i64) -> i64 {
    let shown = (minute - 840..=minute + 720).find(|&i| i + zone.offset_at(i) == minute);
    shown.unwrap_or_else(|| {
        let before_gap = |t: &&Transition| {
            let before = zone.offset_at(t.instant - 1);
            t.instant + before <= minute && minute < t.instant + t.offset
        };
        let gaps: Vec<&Transition> = zone.transitions.iter().filter(before_gap).collect();
        assert_eq!(gaps.len(), 1, "m lies in the gap of one transition");
        minute - zone.offset_at(gaps[0].instant - 1)
    })
}

#[test]
fn every_instant_tried() {
    for seed in 0..60 {
        let mut random = Random::new(seed);
        let text = zone_lines(&mut random).join("\n") + "\n";
        let zone = zone_of(&read(text.as_bytes()).expect("the zone is taken"));
        for _ in 0..500 {
            let minute = match random.between(0, 3) {
                0 => random.between(FIRST_MINUTE, LAST_MINUTE),
                _ => near_a_transition(&zone, &mut random),
            };
            let instant = zone.instant_of(minute);
            assert_eq!(instant, plainly(&zone, minute), "{minute}\n{text}");
        }
    }
}

#[test]
fn the_offset_at_and_around_a_transition() {
    let zone = Zone {
        first_offset: 60,
        transitions: vec![Transition {
            instant: 5_000,
            offset: 120,
        }],
    };
    assert_eq!(zone.offset_at(i64::MIN), 60);
    assert_eq!(zone.offset_at(4_999), 60);
    assert_eq!(zone.offset_at(5_000), 120);
    assert_eq!(zone.offset_at(i64::MAX), 120);
}

/// "02:30 missing lands after 03:00, and with a gap over midnight a minute of yesterday can land after one of
/// today."
#[test]
fn a_gap_over_midnight() {
    let zone = Zone {
        first_offset: 0,
        transitions: vec![Transition {
            instant: 14_400 - 30,
            offset: 60,
        }],
    };
    let yesterday = zone.instant_of(14_400 - 20);
    let today = zone.instant_of(14_400 + 35);
    assert_eq!((yesterday, today), (14_380, 14_375));
}
