//! What is asked of a compiled plan.

use crate::meaning::rule::nth_occurrence;
use crate::random::Random;
use crate::searches::{Search, Searches, NEXT, PREVIOUS};
use crate::sheet::line::Line;
use crate::sheet::{read, zone_of};
use crate::shown::shown;

/// So many instants stand in one request.
const TOGETHER: usize = 16;

/// The load check, and the searches of a taken sheet.
pub fn all(sheet: &[u8], random: &mut Random) -> Vec<String> {
    let text = shown(sheet);
    let lines = match read(sheet) {
        Ok(lines) => lines,
        Err(refusal) => panic!("{refusal:?}: this sheet should be taken: {text}"),
    };
    let mut asked = Searches {
        zone: &zone_of(&lines),
        named: lines.iter().flat_map(named_by).collect(),
        in_turn: if lines.len() > 40 { 10 } else { 20 },
        random,
        all: Vec::new(),
    };
    asked.at_the_extremes();
    asked.anywhere(1);
    asked.around_all_transitions();
    asked.around_named_minutes(4);
    let mut all = vec![format!("sheet_check {text}")];
    for name in [NEXT, PREVIOUS] {
        let searches = asked.all.iter().filter(|search| search.name == name);
        let (once, in_turn): (Vec<&Search>, Vec<&Search>) = searches.partition(|s| s.count == 1);
        let chunks = once.chunks(TOGETHER).map(|some| request(some, &text));
        all.extend(chunks);
        all.extend(in_turn.into_iter().map(|one| request(&[one], &text)));
    }
    all
}

/// The request for searches that all have the first one's name and count.
fn request(searches: &[&Search], text: &str) -> String {
    let instants: Vec<String> = searches.iter().map(|one| one.from.to_string()).collect();
    let Search { name, count, .. } = searches[0];
    format!("sheet_{name} {count} {} {text}", instants.join(","))
}

/// An extra or excepted minute, or the start of a rule and its UNTIL or COUNT-th occurrence.
fn named_by(line: &Line) -> Vec<i64> {
    match line {
        Line::Extra(minute) | Line::Excepted(minute) => vec![*minute],
        Line::Rule(rule) => {
            let counted = rule.count.and_then(|count| nth_occurrence(rule, count));
            [Some(rule.start), rule.until, counted]
                .into_iter()
                .flatten()
                .collect()
        }
        _ => Vec::new(),
    }
}
