//! The sheets at the edges of the search are what their names say.

use reference::entries::{compile, Loaded};
use reference::generate::{empty_sheet, ends_sheet, full_sheet, midnight_sheet};
use reference::local::{LAST_MINUTE, MINUTES_OF_A_DAY};
use reference::plan::{self, Plan};
use reference::random::Random;

const SEEDS: u64 = 40;

fn plans(sheet: fn(&mut Random) -> String) -> Vec<(Plan, Loaded)> {
    let texts = (0..SEEDS).map(|seed| sheet(&mut Random::new(seed)));
    texts
        .map(|text| {
            let (compiled, plan) = compile(text.as_bytes(), usize::MAX);
            assert_eq!(compiled.number, 0, "{text}");
            let taken = plan::read(plan.as_bytes());
            let taken = taken.unwrap_or_else(|line| panic!("line {line} not taken\n{text}"));
            (taken, Loaded::new(plan.as_bytes()))
        })
        .collect()
}

#[test]
fn full_sheets_have_the_most_lines() {
    for (plan, _) in plans(full_sheet) {
        assert_eq!((plan.frames.len(), plan.zone.transitions.len()), (64, 32));
    }
}

#[test]
fn empty_sheets_hold_nothing() {
    for (_, loaded) in plans(empty_sheet) {
        assert_eq!(loaded.next(i64::MIN).number, 11);
        assert_eq!(loaded.previous(i64::MAX).number, 11);
    }
}

/// In most of them; an excepted time may be the one near an end.
#[test]
fn ends_sheets_hold_doses_at_both_ends() {
    let both = plans(ends_sheet).into_iter().filter(|(_, loaded)| {
        let (first, last) = (loaded.next(i64::MIN), loaded.previous(i64::MAX));
        first.instant < 1_500 && last.instant > LAST_MINUTE - 1_500
    });
    assert!(both.count() as u64 > SEEDS / 2);
}

/// Gaps and doubled hours that begin before midnight and end after it, and doses in them.
#[test]
fn midnight_sheets_have_gaps_and_doubled_hours_over_midnight() {
    let (mut gaps, mut doubled) = (0, 0);
    for (plan, loaded) in plans(midnight_sheet) {
        for transition in &plan.zone.transitions {
            let before = transition.instant + plan.zone.offset_at(transition.instant - 1);
            let after = transition.instant + transition.offset;
            let over = before.div_euclid(MINUTES_OF_A_DAY) != after.div_euclid(MINUTES_OF_A_DAY);
            let next = loaded.next(transition.instant - 1);
            let near = next.number == 0 && next.instant < transition.instant + 180;
            gaps += u64::from(over && near && before < after);
            doubled += u64::from(over && near && after < before);
        }
    }
    assert!(gaps > 15 && doubled > 15, "{gaps} gaps, {doubled} doubled");
}
