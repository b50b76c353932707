//! The suite `examples`: the recurrence examples of RFC 5545 and those of POSIX's crontab. What is wanted are the times that are
//! printed there, up from before the first and down from after the last.

use super::{paragraphs, Row};
use crate::dates::date_of_day;
use crate::local::{day_of_minute, minute_at, minute_of};
use crate::shown::shown;

pub const RFC5545: &str = include_str!("../../tables/rfc5545.txt");
pub const CRONTAB: &str = include_str!("../../tables/crontab.txt");

/// A title, a sheet's Z and T lines and its one other line, and the times that are printed for it.
pub struct Example {
    pub title: String,
    pub zone: Vec<String>,
    pub line: String,
    pub times: Vec<Time>,
    /// Whether there are more times than are printed.
    pub goes_on: bool,
}

/// A local minute, and the offset that is printed with it.
pub struct Time {
    pub minute: i64,
    pub offset: i64,
}

impl Time {
    fn instant(&self) -> i64 {
        self.minute - self.offset
    }

    fn first_of_month(&self) -> i64 {
        let day = day_of_minute(self.minute);
        let date = date_of_day(day).expect("a day of the window is in the calendar");
        minute_at(day - date.day + 1, 0) - self.offset
    }
}

pub fn rows() -> Vec<Row> {
    let all = [RFC5545, CRONTAB].into_iter().flat_map(examples);
    all.flat_map(|example| example.rows()).collect()
}

/// The examples of a table, after a paragraph that is their zone.
pub fn examples(table: &str) -> Vec<Example> {
    let paragraphs = paragraphs(table);
    let (zone, all) = paragraphs.split_first().expect("a table has a zone");
    all.iter().map(|lines| example(zone, lines)).collect()
}

fn example(zone: &[&str], lines: &[&str]) -> Example {
    let (listed, goes_on) = match lines {
        [listed @ .., "..."] => (listed, true),
        listed => (listed, false),
    };
    let months = listed.iter().skip(2);
    Example {
        title: lines[0].to_string(),
        zone: zone.iter().map(|line| line.to_string()).collect(),
        line: lines[1].to_string(),
        times: months.flat_map(|month| times(month)).collect(),
        goes_on,
    }
}

/// `2025-09 0900-0400 2-11 13`: year and month, time of day and offset, days.
fn times(month: &str) -> Vec<Time> {
    let words: Vec<&str> = month.split(' ').collect();
    let (year, month) = (number(&words[0][..4]), number(&words[0][5..]));
    let (hour, minute) = (number(&words[1][..2]), number(&words[1][2..4]));
    let offset = number(&words[1][4..]); // a sign and HHMM
    let days = words[2..].iter().flat_map(|word| {
        let (first, last) = word.split_once('-').unwrap_or((word, word));
        number(first)..=number(last)
    });
    let minutes = days.map(|day| minute_of(year, month, day, hour, minute));
    let time = |minute: Option<i64>| Time {
        minute: minute.expect("a table's times are in the window"),
        offset: offset / 100 * 60 + offset % 100,
    };
    minutes.map(time).collect()
}

fn number(digits: &str) -> i64 {
    digits.parse().expect("a table's numbers are decimal")
}

impl Example {
    /// A rule's first time is printed; of a cron line all from the first of the month on.
    fn is_rule(&self) -> bool {
        self.line.starts_with('R')
    }

    fn rows(&self) -> [Row; 2] {
        let mut instants: Vec<i64> = self.times.iter().map(Time::instant).collect();
        let from = match self.is_rule() {
            true => i64::MIN,
            false => self.times[0].first_of_month() - 1,
        };
        let up = self.row("sheet_next", from, &instants, !self.goes_on);
        let from = match self.goes_on {
            true => instants[instants.len() - 1] + 1,
            false => i64::MAX,
        };
        instants.reverse();
        let down = self.row("sheet_previous", from, &instants, self.is_rule());
        [up, down]
    }

    /// The instants in turn, and none after them where they are the last.
    fn row(&self, name: &str, from: i64, instants: &[i64], are_all: bool) -> Row {
        let mut answers: Vec<String> = instants
            .iter()
            .map(|found| format!("0 0 {found}"))
            .collect();
        answers.extend(are_all.then(|| "11 0 0".to_string()));
        let lines = self.zone.iter().chain([&self.line]);
        let sheet: String = lines.map(|line| format!("{line}\n")).collect();
        Row {
            name: self.title.clone(),
            request: format!(
                "{name} {} {from} {}",
                answers.len(),
                shown(sheet.as_bytes())
            ),
            answer: answers.join(","),
        }
    }
}
