//! What the programs in `peers/` are given to compare with.

use std::io::{self, Write};

use crate::dates::{date_of_day, iso_of_day, weekday, FIRST_DAY, LAST_DAY};
use crate::generate::{
    all_cron_lines, all_positions, all_positions_of_years, cron_line, large_set_rule_line,
    lines_of_years, near_a_transition, rule_line, zone_lines, TWO_YEARS,
};
use crate::local::{minute_of, written, FIRST_MINUTE, LAST_MINUTE};
use crate::meaning::{of_sheet, Meaning};
use crate::random::Random;
use crate::sheet;

/// Random lines for `--times 1`.
const LINES: u64 = 500;

/// Held times that are printed for a line; where there are more, the list is cut.
const SHOWN: usize = 300;

/// A line for each day: day, year, month, day of month, ISO year, ISO week, ISO weekday, weekday.
pub fn dates(out: &mut impl Write) -> io::Result<()> {
    for day in FIRST_DAY..=LAST_DAY {
        let (date, iso) = date_of_day(day)
            .zip(iso_of_day(day))
            .ok_or_else(|| failed(format!("day {day} is missing")))?;
        writeln!(
            out,
            "{day} {} {} {} {} {} {} {}",
            date.year,
            date.month,
            date.day,
            iso.year,
            iso.week,
            iso.weekday,
            weekday(day)
        )?;
    }
    Ok(())
}

fn failed(why: String) -> io::Error {
    io::Error::new(io::ErrorKind::Other, why)
}

/// A line for each of the R lines that are written down or by a pattern, and for each random one: its text, its start, and
/// the held times from there on.
pub fn rules(seed: u64, times: u64, out: &mut impl Write) -> io::Result<()> {
    let mut random = Random::new(seed);
    let fixed = [all_positions(), all_positions_of_years(), lines_of_years()].concat();
    for line in fixed {
        show(&line, FIRST_MINUTE, SHOWN, out)?;
    }
    for number in 0..times.saturating_mul(LINES) {
        let line = match number % 5 {
            0 => large_set_rule_line(&mut random),
            _ => rule_line(&mut random),
        };
        show(&line, FIRST_MINUTE, SHOWN, out)?;
    }
    Ok(())
}

/// A line for each C line that is written down, from 2027 on, and for each random one: its text, a random time, and the
/// held times from there on.
pub fn cron(seed: u64, times: u64, out: &mut impl Write) -> io::Result<()> {
    let mut random = Random::new(seed);
    let first = minute_of(2027, 1, 1, 0, 0).unwrap_or_default();
    for line in all_cron_lines() {
        show(&line, first, TWO_YEARS, out)?;
    }
    for _ in 0..times.saturating_mul(LINES) {
        let line = cron_line(&mut random);
        let from = random.between(FIRST_MINUTE, LAST_MINUTE);
        show(&line, from, SHOWN, out)?;
    }
    Ok(())
}

/// A line for each random zone: its Z and T lines, and local times with the instants that they become.
pub fn zones(seed: u64, times: u64, out: &mut impl Write) -> io::Result<()> {
    let mut random = Random::new(seed);
    for _ in 0..times.saturating_mul(LINES) {
        let zone = zone_lines(&mut random);
        let meaning = meaning_of(&zone.join("\n"))?;
        let mut pairs = Vec::new();
        for _ in 0..SHOWN {
            let minute = match random.between(0, 3) {
                0 => random.between(FIRST_MINUTE, LAST_MINUTE),
                _ => near_a_transition(&meaning.zone, &mut random),
            };
            let instant = meaning.zone.instant_of(minute);
            pairs.push(format!("{} {instant}", written(minute)));
        }
        writeln!(out, "{}|{}", zone.join(";"), pairs.join(";"))?;
    }
    Ok(())
}

/// The meaning of a sheet without its last LF.
fn meaning_of(text: &str) -> io::Result<Meaning> {
    sheet::read(format!("{text}\n").as_bytes())
        .map(|lines| of_sheet(&lines))
        .map_err(|refusal| failed(format!("{text}: {refusal:?}")))
}

/// `LINE|FROM|whole or cut|TIMES`: the held times of a sheet with this one line, at most so many.
fn show(line: &str, from: i64, most: usize, out: &mut impl Write) -> io::Result<()> {
    let meaning = meaning_of(&format!("Z +0000\n{line}"))?;
    let mut held = meaning.minutes.rising_from(from);
    let shown: Vec<String> = held.by_ref().take(most).map(written).collect();
    let rest = if held.next().is_some() {
        "cut"
    } else {
        "whole"
    };
    writeln!(out, "{line}|{}|{rest}|{}", written(from), shown.join(" "))
}
