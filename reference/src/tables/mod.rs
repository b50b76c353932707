//! Requests whose answers are written down, in the files of `tables/`, and not worked out here.

pub mod examples;
pub mod limits;

use std::fmt;
use std::sync::Arc;
use std::time::Duration;

use crate::compare::Tally;
use crate::driver::ask;

/// A request, the answer that is written down for it, and the name of its row in the table.
#[derive(Clone, Debug, PartialEq, Eq)]
pub struct Row {
    pub name: String,
    pub request: String,
    pub answer: String,
}

impl fmt::Display for Row {
    fn fmt(&self, to: &mut fmt::Formatter) -> fmt::Result {
        write!(to, "[{}] {}", self.name, self.request)
    }
}

/// The rows of a suite; none if there is no such suite. The limits are one table, of which each driver answers its part.
pub fn rows(suite: &str) -> Option<Vec<Row>> {
    match suite {
        "examples" => Some(examples::rows()),
        "limits_dates" => Some(limits::rows(limits::DATES)),
        "limits_plans" => Some(limits::rows(limits::PLANS)),
        "limits_sheets" => Some(limits::rows(limits::SHEETS)),
        _ => None,
    }
}

/// The paragraphs of a table, lines each, without its comments.
fn paragraphs(table: &str) -> Vec<Vec<&str>> {
    let lines = table.lines().filter(|line| !line.starts_with('#'));
    let lines: Vec<&str> = lines.collect();
    let all = lines.split(|line| line.is_empty());
    all.filter(|lines| !lines.is_empty())
        .map(<[&str]>::to_vec)
        .collect()
}

/// Sends all requests to one start of the driver. A difference names its row.
pub fn compare(words: &[String], patience: Duration, rows: &[Row]) -> Tally {
    let requests = rows.iter().map(|row| row.request.clone()).collect();
    let wanted = rows.iter().map(|row| (row.to_string(), &row.answer));
    let mut tally = Tally::default();
    tally.batch(ask(words, &Arc::new(requests), patience), wanted);
    tally
}
