//! The sheets and plans at the edges of what is taken: they meet every refusal number, and some are taken.

use reference::entries::{compile, Loaded};
use reference::generate::{bad_plan, bad_sheet, edge_lines, plans_at_the_edges};
use reference::random::Random;

fn number_of(sheet: &[u8]) -> u64 {
    compile(sheet, usize::MAX).0.number
}

#[test]
fn bad_sheets_meet_their_number() {
    for number in 1..=8 {
        let mut sheets = (0..100).map(|seed| bad_sheet(number, &mut Random::new(seed)));
        assert!(sheets.any(|sheet| number_of(&sheet) == number), "{number}");
    }
}

#[test]
fn edge_lines_meet_the_numbers_of_a_line() {
    let after_a_zone = |line: String| number_of(format!("Z +0100\n{line}\n").as_bytes());
    let met: Vec<u64> = edge_lines().into_iter().map(after_a_zone).collect();
    for number in [0, 3, 4, 5, 6] {
        assert!(met.contains(&number), "{number}");
    }
}

#[test]
fn plans_are_taken_and_refused() {
    let mut random = Random::new(1);
    let mut plans = plans_at_the_edges(&mut random);
    plans.extend((0..200).map(|number| bad_plan(number % 8, &mut random)));
    let lines: Vec<u64> = plans
        .iter()
        .map(|plan| Loaded::new(plan).check().line)
        .collect();
    for line in [0, 1, 2, 3, 34, 65] {
        assert!(lines.contains(&line), "{line}");
    }
}
