//! The sheets of the suite `program`, all made by the suite `sheets`, and how each comes.

use std::collections::BTreeSet;

use super::{Case, Input, Output};
use crate::cases_sheets::lengths::longest_plan;
use crate::cases_sheets::{fixed_sheets, searched_sheets, sheets_of_round, EXAMPLE};
use crate::random::Random;
use crate::sheet::{read, MOST_BYTES};

/// Rounds of the suite `sheets` for `--times 1`.
const ROUNDS: u64 = 2;

/// Every so many-th of the taken sheets that the suite `sheets` always has.
const STEP: usize = 8;

/// Lengths at which a sort of sheets begins: nearly the most, about the most, some 20,000, and more than a pipe takes.
const LENGTHS: [usize; 6] = [
    16_000,
    MOST_BYTES - 1,
    MOST_BYTES,
    MOST_BYTES + 1,
    19_999,
    65_537,
];

/// Numbers of lines at which a sort begins.
const LINES: [usize; 3] = [1, 64, 65];

/// The longest of the pieces in which a sheet comes.
const LONGEST_PIECES: [i64; 5] = [2, 9, 80, 900, 6_000];

/// All cases; with `times` 0 all but those of random sheets.
pub fn all(seed: u64, times: u64) -> Vec<Case> {
    let mut random = Random::new(seed);
    let sorts = of_each_sort(fixed_sheets(&mut random));
    let mut all = closed_and_full();
    all.extend(sorts.iter().map(|sheet| fed(sheet, Input::Failing)));
    for sheet in sheets(sorts, times, &mut random) {
        let pieces = pieces(&sheet, &mut random);
        for input in [Input::AtOnce, Input::ByteByByte, Input::InPieces(pieces)] {
            all.push(fed(&sheet, input));
        }
    }
    all
}

fn fed(sheet: &[u8], input: Input) -> Case {
    Case {
        sheet: sheet.to_vec(),
        input,
        output: Output::Taken,
    }
}

/// Different sheets: one of each sort, the example cut after each byte, some that are taken, and random ones.
fn sheets(sorts: Vec<Vec<u8>>, times: u64, random: &mut Random) -> Vec<Vec<u8>> {
    let mut all = sorts;
    let example = EXAMPLE.as_bytes();
    all.extend((0..=example.len()).map(|at| example[..at].to_vec()));
    let searched = searched_sheets().into_iter().step_by(STEP);
    let searched = searched.chain([longest_plan()]);
    all.extend(searched.map(String::into_bytes));
    for number in 0..times.saturating_mul(ROUNDS) {
        let round = sheets_of_round(number, random);
        all.extend(round.searched.map(String::into_bytes));
        all.extend(round.compiled);
    }
    let mut seen = BTreeSet::new();
    all.retain(|sheet| seen.insert(sheet.clone()));
    all
}

/// The first of each sort.
fn of_each_sort(mut sheets: Vec<Vec<u8>>) -> Vec<Vec<u8>> {
    let mut seen = BTreeSet::new();
    sheets.retain(|sheet| seen.insert(sort_of(sheet)));
    sheets
}

/// The refusal's number and whether its line is none, the first or a later one; about how long the sheet is, about how many lines
/// it has, and whether it ends with LF.
fn sort_of(sheet: &[u8]) -> (u64, u64, usize, usize, bool) {
    let refusal = read(sheet).err();
    let (number, line) = refusal.map_or((0, 0), |refusal| (refusal.number, refusal.line));
    let lines = sheet.split_inclusive(|&byte| byte == b'\n').count();
    let about = |number: usize, begins: &[usize]| {
        let reached = begins.iter().filter(|&&begin| begin <= number);
        reached.count()
    };
    (
        number,
        line.min(2),
        about(sheet.len(), &LENGTHS),
        about(lines, &LINES),
        sheet.ends_with(b"\n"),
    )
}

/// Lengths that make up the sheet. A read that asks for less than a piece loses the rest, so one ends where a sheet may end last.
fn pieces(sheet: &[u8], random: &mut Random) -> Vec<usize> {
    let longest = LONGEST_PIECES[random.between(0, 4) as usize];
    let full = sheet.len().min(MOST_BYTES);
    let mut lengths = Vec::new();
    for part in [full, sheet.len() - full] {
        let mut left = part;
        while left > 0 {
            let length = random.between(1, longest.min(left as i64)) as usize;
            lengths.push(length);
            left -= length;
        }
    }
    lengths
}

/// Standard input closed, and standard output that takes nothing, for a plan and for a refusal.
fn closed_and_full() -> Vec<Case> {
    let mut all = vec![fed(b"", Input::Closed)];
    for sheet in [EXAMPLE, ""] {
        for output in [Output::Unread, Output::Full, Output::Closed] {
            all.push(Case {
                output,
                ..fed(sheet.as_bytes(), Input::AtOnce)
            });
        }
    }
    all
}
