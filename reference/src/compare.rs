//! The comparison: every request's wanted answer against the driver's, field for field as a line.

use std::io;
use std::sync::Arc;
use std::time::Duration;

use crate::answer::answer;
use crate::driver::{ask, Answers};

/// Requests for one start of the driver.
const BATCH: usize = 100_000;

/// Lines with differences that are shown; the others are only counted.
const SHOWN: u64 = 20;

#[derive(Default)]
pub struct Tally {
    pub compared: u64,
    pub differ: u64,
    shown: u64,
}

impl Tally {
    /// A run is good only if something was compared and nothing differs.
    pub fn is_good(&self) -> bool {
        self.compared > 0 && self.differ == 0
    }

    /// One answer, whatever it holds.
    pub fn answer(&mut self, request: &str, wanted: &str, got: &str) {
        self.compared += 1;
        if wanted != got {
            self.difference(request, wanted, got);
        }
    }

    pub fn difference(&mut self, request: &str, wanted: &str, got: &str) {
        self.differ += 1;
        self.show(request, wanted, got);
    }

    fn show(&mut self, request: &str, wanted: &str, got: &str) {
        if self.shown < SHOWN {
            println!("differs: {request}\n  wanted: {wanted}\n  got:    {got}");
        }
        self.shown += 1;
    }

    /// A line may have several answers, with commas between. The first that differs is shown with its place.
    fn line(&mut self, request: &str, wanted: &str, got: &str) {
        let wanted: Vec<&str> = wanted.split(',').collect();
        let got: Vec<&str> = got.split(',').collect();
        let answers = 0..wanted.len().max(got.len());
        let differing: Vec<usize> = answers.filter(|&k| wanted.get(k) != got.get(k)).collect();
        self.compared += wanted.len() as u64;
        self.differ += differing.len() as u64;
        if let Some(&first) = differing.first() {
            let request = match wanted.len() {
                1 => request.to_string(),
                answers => format!("{request} (answer {} of {answers})", first + 1),
            };
            let at = |all: &[&str]| all.get(first).copied().unwrap_or("(no answer)").to_string();
            self.show(&request, &at(&wanted), &at(&got));
        }
    }

    /// The driver's answers to the requests of a batch and those that are wanted; whether there were answers. The end of the
    /// driver comes first: it may say why answers are missing.
    pub fn batch(
        &mut self,
        answers: io::Result<Answers>,
        wanted: impl Iterator<Item = (impl AsRef<str>, impl AsRef<str>)>,
    ) -> bool {
        let answers = match answers {
            Ok(answers) => answers,
            Err(error) => {
                let wanted = "all answers, and its end";
                self.difference("(the driver)", wanted, &error.to_string());
                return false;
            }
        };
        if !answers.status.success() {
            let ended = answers.status.to_string();
            self.difference("(end of the driver)", "exit status: 0", &ended);
        }
        let mut lines = answers.lines.iter();
        for (request, wanted) in wanted {
            let got = lines.next().map_or("(no answer)", String::as_str);
            self.line(request.as_ref(), wanted.as_ref(), got);
        }
        for line in lines {
            self.difference("(after the last request)", "(no answer)", line);
        }
        true
    }
}

/// Sends all requests to the driver, batch by batch, and tallies the answers. A driver that does not start, or
/// that is given up, ends the comparison.
pub fn compare(
    words: &[String],
    patience: Duration,
    mut requests: impl Iterator<Item = String>,
) -> Tally {
    let mut tally = Tally::default();
    loop {
        let batch: Arc<Vec<String>> = Arc::new(requests.by_ref().take(BATCH).collect());
        if batch.is_empty() {
            return tally;
        }
        let wanted = |request: &String| {
            answer(request).unwrap_or_else(|| "(no request of the protocol)".to_string())
        };
        let wanted = batch.iter().map(|request| (request, wanted(request)));
        if !tally.batch(ask(words, &batch, patience), wanted) {
            return tally;
        }
    }
}
