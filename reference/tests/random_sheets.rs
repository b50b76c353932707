//! Random sheets: the compiled plan is taken, means what the sheet means, and the searches find just that.

use reference::entries::{compile, Found, Loaded};
use reference::generate::{crowded_sheet, near_a_transition, sheet};
use reference::local::{FIRST_MINUTE, LAST_MINUTE};
use reference::meaning::{of_sheet, Meaning};
use reference::random::Random;
use reference::zone::Zone;
use reference::{plan, sheet as sheets};

const SHEETS: u64 = 300;
const SEARCHED_SHEETS: u64 = 100;

/// Sheets that hold more minutes are left out where the whole list of instants is made, and others tried, so many.
const MOST_MINUTES: usize = 50_000;
const TRIED_SEEDS: u64 = 1_000;

fn meaning_of_sheet(text: &str) -> Meaning {
    match sheets::read(text.as_bytes()) {
        Ok(lines) => of_sheet(&lines),
        Err(refusal) => panic!("{refusal:?}\n{text}"),
    }
}

fn meaning_of_plan(text: &str) -> Meaning {
    match plan::read(text.as_bytes()) {
        Ok(taken) => plan::of_plan(&taken),
        Err(line) => panic!("line {line} not taken\n{text}"),
    }
}

/// "Every compiled plan is taken", and sheet and plan mean the same.
#[test]
fn sheet_and_plan_mean_the_same() {
    for seed in 0..SHEETS {
        let text = sheet(&mut Random::new(seed));
        let meaning = meaning_of_sheet(&text);
        let (compiled, plan) = compile(text.as_bytes(), usize::MAX);
        assert_eq!((compiled.number, compiled.length), (0, plan.len() as u64));
        assert!(meaning == meaning_of_plan(&plan), "{text}{plan}");
    }
}

/// Next and previous of the plan against the whole rising list of the sheet's instants.
struct Neighbours {
    text: String,
    loaded: Loaded,
    instants: Vec<i64>,
}

impl Neighbours {
    fn of(text: &str) -> Neighbours {
        let (_, plan) = compile(text.as_bytes(), usize::MAX);
        Neighbours {
            text: text.to_string(),
            loaded: Loaded::new(plan.as_bytes()),
            instants: meaning_of_sheet(text).instants(),
        }
    }

    fn check(&self, asked: i64) {
        let instants = &self.instants;
        let later = instants.get(instants.partition_point(|&i| i <= asked));
        let earlier = instants[..instants.partition_point(|&i| i < asked)].last();
        assert_eq!(
            self.loaded.next(asked),
            found(later),
            "{asked}\n{}",
            self.text
        );
        assert_eq!(
            self.loaded.previous(asked),
            found(earlier),
            "{asked}\n{}",
            self.text
        );
    }
}

fn found(instant: Option<&i64>) -> Found {
    Found {
        number: if instant.is_some() { 0 } else { 11 },
        line: 0,
        instant: instant.copied().unwrap_or(0),
    }
}

#[test]
fn searches_find_the_neighbours_in_the_whole_list() {
    let mut searched = 0;
    for seed in 0..TRIED_SEEDS {
        let mut random = Random::new(seed);
        let text = sheet(&mut random);
        let meaning = meaning_of_sheet(&text);
        if meaning.minutes.rising_from(0).nth(MOST_MINUTES).is_some() {
            continue;
        }
        let neighbours = Neighbours::of(&text);
        for _ in 0..200 {
            neighbours.check(asked_instant(&meaning.zone, &mut random));
        }
        searched += 1;
        if searched == SEARCHED_SHEETS {
            return;
        }
    }
    panic!("of {TRIED_SEEDS} sheets only {searched} are short enough");
}

/// Every instant around each transition, where many minutes on both sides of it are held.
#[test]
fn searches_around_transitions() {
    let mut transitions = 0;
    for seed in 0..SEARCHED_SHEETS {
        let text = crowded_sheet(&mut Random::new(seed));
        let neighbours = Neighbours::of(&text);
        for transition in &meaning_of_sheet(&text).zone.transitions {
            for distance in -250..=250 {
                neighbours.check(transition.instant + distance);
            }
            transitions += 1;
        }
    }
    assert!(transitions >= SEARCHED_SHEETS, "{transitions} transitions");
}

fn asked_instant(zone: &Zone, random: &mut Random) -> i64 {
    match random.between(0, 4) {
        0 => random.any(),
        1 => random.between(-2_000, 2_000),
        2 => LAST_MINUTE + random.between(-2_000, 2_000),
        3 => random.between(FIRST_MINUTE, LAST_MINUTE),
        _ => zone.instant_of(near_a_transition(zone, random)),
    }
}
