//! The suite `sheets`: whole sheets, compiled into buffers of every length, and what is then asked of their plans.

pub mod faults;
pub mod lengths;

mod asked;
mod rooms;

use crate::answer_sheets::request;
use crate::cases_lines::damage::{at_every_byte, damaged};
use crate::cases_plans::{
    sheets_at_the_ends, sheets_of_crons, sheets_of_eight, sheets_of_positions, sheets_of_years,
    some_sheet, two_years, EVERY_KIND, SORTS,
};
use crate::generate::{
    bad_sheet, edge_lines, refused_sheet, sheet_of_lines, with_seconds, TWO_YEARS,
};
use crate::random::Random;
use crate::shown::shown;

/// Rounds for `--times 1`.
const ROUNDS: u64 = 128;
const MOST_LINES: u64 = 64;
const REFUSED_BY: [u64; 8] = [1, 2, 3, 4, 5, 6, 7, 8];
const DAMAGES: u64 = 8;

/// The most that the driver lends; no plan is so long.
pub const MOST_ROOM: usize = 16_384;

/// Document 01's whole example.
pub const EXAMPLE: &str = "\
Z +0100
T 20260329T0100 +0200
T 20261025T0100 +0100
C 30 2 * * *
";

/// A line of every kind, with both forms of a time. It is damaged at every byte.
const SMALL: &str = "\
Z +0100
T 20260329T010000 +0200
C 30 2 * * 1-5
R 20260131T0600 FREQ=MONTHLY;BYDAY=SA,-1SU;COUNT=3
R 20260131T060000 UNTIL=20991231T235900;FREQ=YEARLY;BYMONTH=1,12
D 20260329T0230
X 20260329T033000
";

/// Lines after which an edge line stands.
const BEFORE: [&str; 3] = ["", "Z +0100\n", EXAMPLE];

/// All requests; with `times` 0 all but the rounds of random ones.
pub fn requests(seed: u64, times: u64) -> Box<dyn Iterator<Item = String>> {
    let mut random = Random::new(seed);
    let mut fixed = Vec::new();
    for sheet in fixed_sheets(&mut random) {
        fixed.extend(compiled(&sheet, &mut random));
    }
    for sheet in ["", "\n", "Z +0000\n", EXAMPLE, SMALL] {
        fixed.extend(rooms::each(sheet.as_bytes()));
    }
    for sheet in searched_sheets() {
        fixed.extend(about(sheet.as_bytes(), &mut random));
    }
    for sheet in sheets_of_eight() {
        let text = shown(sheet.as_bytes());
        let asked = two_years();
        fixed.extend(asked.map(|(name, from)| format!("sheet_{name} {TWO_YEARS} {from} {text}")));
    }
    let rounds = times.saturating_mul(ROUNDS);
    let rounds = (0..rounds).flat_map(move |number| round(number, &mut random));
    Box::new(fixed.into_iter().chain(rounds))
}

/// Sheets that are only compiled.
pub fn fixed_sheets(random: &mut Random) -> Vec<Vec<u8>> {
    let mut all = lengths::all();
    all.extend(faults::all(random));
    all.extend(at_every_byte(SMALL.as_bytes()));
    for line in edge_lines() {
        all.extend(BEFORE.map(|before| format!("{before}{line}\n").into_bytes()));
    }
    all
}

pub fn searched_sheets() -> Vec<String> {
    let written = [EXAMPLE, SMALL, EVERY_KIND].map(str::to_string);
    let all = written.into_iter().chain([lengths::longest_plan()]);
    let all = all.chain(sheets_at_the_ends());
    let all = all.chain(sheets_of_positions());
    all.chain(sheets_of_years())
        .chain(sheets_of_crons())
        .collect()
}

/// The sheets of a round: those that are searched are taken.
pub struct Round {
    pub searched: [String; 2],
    pub compiled: Vec<Vec<u8>>,
}

/// A sheet of a sort and one of so many lines; damaged ones, and one for each refusal.
pub fn sheets_of_round(number: u64, random: &mut Random) -> Round {
    let lines = 1 + number % MOST_LINES;
    let some = some_sheet(number % SORTS, random);
    let some = with_seconds(&some, random);
    let mixed = sheet_of_lines(lines as usize, random);
    let mixed = with_seconds(&mixed, random);
    let damages = (0..DAMAGES).map(|_| damaged(mixed.as_bytes(), random));
    let mut compiled: Vec<Vec<u8>> = damages.collect();
    for refusal in REFUSED_BY {
        compiled.push(refused_sheet(refusal, random));
        compiled.push(bad_sheet(refusal, random));
    }
    Round {
        searched: [some, mixed],
        compiled,
    }
}

fn round(number: u64, random: &mut Random) -> Vec<String> {
    let sheets = sheets_of_round(number, random);
    let mut all = Vec::new();
    for sheet in sheets.searched {
        all.extend(about(sheet.as_bytes(), random));
    }
    for sheet in sheets.compiled {
        all.extend(compiled(&sheet, random));
    }
    all
}

fn compiled(sheet: &[u8], random: &mut Random) -> Vec<String> {
    let rooms = rooms::about(sheet, random).into_iter();
    rooms.map(|room| request(room, sheet)).collect()
}

/// Everything that is asked of a taken sheet.
fn about(sheet: &[u8], random: &mut Random) -> Vec<String> {
    let mut all = compiled(sheet, random);
    all.extend(asked::all(sheet, random));
    all
}
