//! Cases for `tools/try-meanings`: generated sheets and plans with the reference's answers, for the prover to
//! compute from the definitions. A line each, numbers and bytes as hex digits (`-` for none):
//! `sheet BYTES`, then `compile ROOM NUMBER LINE BAD_AT BAD_LENGTH PLAN` for some rooms, and, if it is taken,
//! `minute LOCAL HELD INSTANT SHOWN` for some local minutes, where SHOWN is how many instants show it;
//! `plan BYTES`, then `load NUMBER LINE` and such minutes.

mod asked;
mod cost;

use std::io::{self, Write};

use crate::entries::{compile, Loaded};
use crate::generate::{
    bad_plan, bad_sheet, crowded_sheet, edge_lines, eight_cron_lines, lines_of_years,
    plans_at_the_edges, refused_sheet, sheet, short_sheet, with_seconds,
};
use crate::hex::word_of;
use crate::meaning::{of_sheet, Meaning};
use crate::plan::{self, of_plan};
use crate::random::Random;
use crate::sheet::line::Line;
use crate::sheet::read;
use crate::tables::examples::{examples, RFC5545};
use crate::zone::{Zone, OFFSETS};

/// A room for every plan: 64 rule frames and the end frame have 5,317 bytes.
const AMPLE: usize = 6_000;

/// Sheets and minutes that make the prover walk over more days, each weighted by its tests, are left out.
const MOST_DAYS: i64 = 30_000;

/// Of the rules of years that are written down, one in so many.
const YEARS_STEP: u64 = 3;

/// The sorts of sheets: taken ones; one that is refused by each number 1 to 8; one that is near to it by each
/// number, and one with bytes changed.
const TAKEN_SORTS: u64 = 13;
const REFUSED_SORTS: u64 = TAKEN_SORTS + 8;
const SHEET_SORTS: u64 = REFUSED_SORTS + 9;
const PLAN_SORTS: u64 = 8;

pub fn dump(seed: u64, sheets: u64, plans: u64, out: &mut impl Write) -> io::Result<()> {
    let mut random = Random::new(seed);
    sheet_case(b"", &mut random, out)?;
    for line in edge_lines() {
        sheet_case(format!("{line}\n").as_bytes(), &mut random, out)?;
        sheet_case(format!("Z +0100\n{line}\n").as_bytes(), &mut random, out)?;
    }
    for text in sheets_of_years(seed) {
        sheet_case(text.as_bytes(), &mut random, out)?;
    }
    for line in eight_cron_lines() {
        sheet_case(format!("Z +0000\n{line}\n").as_bytes(), &mut random, out)?;
    }
    for number in 0..sheets {
        let text = some_sheet(number % SHEET_SORTS, &mut random);
        sheet_case(&text, &mut random, out)?;
    }
    plan_case(b"", &mut random, out)?;
    for text in plans_at_the_edges(&mut random) {
        plan_case(&text, &mut random, out)?;
    }
    for number in 0..plans {
        let text = bad_plan(number % PLAN_SORTS, &mut random);
        plan_case(&text, &mut random, out)?;
    }
    Ok(())
}

/// RFC 5545's examples of years and of months, and every so many-th of such rules, others for another seed.
fn sheets_of_years(seed: u64) -> Vec<String> {
    let is_wanted = |line: &str| line.contains("YEARLY") || line.contains("BYMONTH=");
    let printed = examples(RFC5545).into_iter();
    let printed = printed.filter(|example| is_wanted(&example.line));
    let printed = printed.map(|example| format!("{}\n{}\n", example.zone.join("\n"), example.line));
    let rules = lines_of_years().into_iter();
    let rules = rules.skip((seed % YEARS_STEP) as usize);
    let rules = rules.step_by(YEARS_STEP as usize);
    printed
        .chain(rules.map(|line| format!("Z +0000\n{line}\n")))
        .collect()
}

/// A sheet of a sort whose counting is not too long.
fn some_sheet(sort: u64, random: &mut Random) -> Vec<u8> {
    loop {
        let text = match sort {
            0 => crowded_sheet(random).into_bytes(),
            1..=4 => with_seconds(&sheet(random), random).into_bytes(),
            _ if sort < TAKEN_SORTS => with_seconds(&short_sheet(random), random).into_bytes(),
            _ if sort < REFUSED_SORTS => refused_sheet(sort - TAKEN_SORTS + 1, random),
            _ => bad_sheet(sort - REFUSED_SORTS + 1, random),
        };
        let lines = read(&text).unwrap_or_default();
        if lines.iter().map(cost::days_to_last).sum::<i64>() <= MOST_DAYS {
            return text;
        }
    }
}

fn sheet_case(text: &[u8], random: &mut Random, out: &mut impl Write) -> io::Result<()> {
    writeln!(out, "sheet {}", word_of(text))?;
    let (_, plan_text) = compile(text, AMPLE);
    let rooms = match plan_text.len() {
        0 => vec![AMPLE, 0],
        length => vec![AMPLE, length, length - 1],
    };
    for room in rooms {
        let (answer, plan_text) = compile(text, room);
        writeln!(
            out,
            "compile {room} {} {} {} {} {}",
            answer.number,
            answer.line,
            answer.bad_at,
            answer.bad_length,
            word_of(plan_text.as_bytes())
        )?;
    }
    match (read(text), plan::read(plan_text.as_bytes())) {
        (Ok(lines), Ok(compiled)) => {
            let meaning = of_sheet(&lines);
            let mut asked = asked::minutes(2, &compiled.frames, &meaning, random);
            asked.retain(|&minute| days_counted(&lines, minute) <= MOST_DAYS);
            minutes(&meaning, &asked, out)?;
            plan_lines(plan_text.as_bytes(), &asked, out)
        }
        _ => Ok(()),
    }
}

fn days_counted(lines: &[Line], minute: i64) -> i64 {
    let days = lines.iter().map(|line| cost::days_to_minute(line, minute));
    days.sum()
}

fn plan_case(text: &[u8], random: &mut Random, out: &mut impl Write) -> io::Result<()> {
    let asked = match plan::read(text) {
        Ok(taken) => asked::minutes(1, &taken.frames, &of_plan(&taken), random),
        Err(_) => Vec::new(),
    };
    plan_lines(text, &asked, out)
}

fn plan_lines(text: &[u8], asked: &[i64], out: &mut impl Write) -> io::Result<()> {
    let answer = Loaded::new(text).check();
    writeln!(out, "plan {}", word_of(text))?;
    writeln!(out, "load {} {}", answer.number, answer.line)?;
    match plan::read(text) {
        Ok(taken) => minutes(&of_plan(&taken), asked, out),
        Err(_) => Ok(()),
    }
}

fn minutes(meaning: &Meaning, asked: &[i64], out: &mut impl Write) -> io::Result<()> {
    for &minute in asked {
        let held = u8::from(meaning.minutes.holds(minute));
        let instant = meaning.zone.instant_of(minute);
        let shown = times_shown(&meaning.zone, minute);
        writeln!(out, "minute {minute} {held} {instant} {shown}")?;
    }
    Ok(())
}

/// How many instants show a local minute: none in a gap, two in a doubled hour.
fn times_shown(zone: &Zone, minute: i64) -> usize {
    let instants = minute - OFFSETS.end()..=minute - OFFSETS.start();
    instants
        .filter(|&instant| instant + zone.offset_at(instant) == minute)
        .count()
}
