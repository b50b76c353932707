//! The suites `limits_dates`, `limits_plans` and `limits_sheets`: both sides of each limit, of one table.

use std::collections::BTreeMap;

use super::{paragraphs, Row};
use crate::hex::word_of;
use crate::shown::bytes_of;

pub const LIMITS: &str = include_str!("../../tables/limits.txt");

/// The requests of each driver.
pub const DATES: &[&str] = &["day_of_date", "date_of_day", "iso_of_day", "day_of_iso"];
pub const PLANS: &[&str] = &["check", "next", "previous", "local", "offset"];
pub const SHEETS: &[&str] = &["sheet", "sheet_next", "sheet_previous"];

/// What stands for longer text in the table.
type Names<'a> = BTreeMap<&'a str, &'a str>;

/// A limit's name, and its rows: the first within it and the second beyond.
pub struct Limit {
    pub name: String,
    pub rows: Vec<Row>,
}

/// The rows that are requests of these names.
pub fn rows(names: &[&str]) -> Vec<Row> {
    let all = limits().into_iter().flat_map(|limit| limit.rows);
    all.filter(|row| names.contains(&first_word(&row.request)))
        .collect()
}

fn first_word(request: &str) -> &str {
    request.split(' ').next().unwrap_or_default()
}

/// The limits of the table, after a paragraph of names.
pub fn limits() -> Vec<Limit> {
    let paragraphs = paragraphs(LIMITS);
    let (names, all) = paragraphs.split_first().expect("a table has names");
    let names = names.iter().filter_map(|line| line.split_once(" = "));
    let names: Names = names.collect();
    all.iter().map(|lines| limit(&names, lines)).collect()
}

/// A limit's name; and, in turn, a value with its request and the answer.
fn limit(names: &Names, lines: &[&str]) -> Limit {
    let rows = lines[1..].chunks(2).map(|row| {
        let (value, request) = row[0].split_once(": ").expect("a value and its request");
        Row {
            name: format!("{}: {}", lines[0], value.trim_start()),
            request: in_hex(&written_out(names, request)),
            answer: written_out(names, row[1].trim_start()),
        }
    });
    Limit {
        name: lines[0].to_string(),
        rows: rows.collect(),
    }
}

/// The text with what stands in braces, the innermost first: `{TEXT*N}` is the text so many times, `{NAME}` what has that name.
fn written_out(names: &Names, text: &str) -> String {
    let mut text = text.to_string();
    while let Some(end) = text.find('}') {
        let start = text[..end].rfind('{').expect("a brace is opened");
        let within = &text[start + 1..end];
        let by = match (names.get(within), within.rsplit_once('*')) {
            (Some(text), _) => text.to_string(),
            (None, Some((text, times))) => text.repeat(times.parse().expect("so many times")),
            (None, None) => panic!("no such name: {within}"),
        };
        text.replace_range(start..=end, &by);
    }
    text
}

/// A plan, the second word of its requests, is written as text in the table and in hex for the driver.
fn in_hex(request: &str) -> String {
    let mut words: Vec<String> = request.split(' ').map(str::to_string).collect();
    if PLANS.contains(&first_word(request)) {
        let plan = bytes_of(&words[1]).expect("a plan as it is shown");
        words[1] = word_of(&plan);
    }
    words.join(" ")
}
