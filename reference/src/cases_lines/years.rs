//! Rules of years, and rules of every frequency in some months: without an end, with COUNT and with UNTIL.

use super::{contexts, Case};
use crate::generate::lines_of_years;

/// Besides none: a few, as many as the years of the window and more, and the most.
const ENDS: [&str; 8] = [
    "",
    ";COUNT=1",
    ";COUNT=2",
    ";COUNT=26",
    ";COUNT=100",
    ";COUNT=101",
    ";COUNT=9999",
    ";UNTIL=20991231T0000",
];

pub fn all() -> Vec<Case> {
    let [_, _, context] = contexts::of_others();
    let lines = lines_of_years().into_iter();
    let with_ends = |line: String| ENDS.map(|end| Case::new(context, format!("{line}{end}")));
    lines.flat_map(with_ends).collect()
}
