//! The place of a line, by its tag: refusal 4,
//! "line out of place (also a first line other than Z), a 33rd T, or an empty sheet (line 1)".

use super::form::{Form, Written};
use super::line::Line;
use crate::zone::MOST_TRANSITIONS;

/// Whether the line may stand after those before it.
pub fn allows(before: &[Line], line: &Written) -> bool {
    match line {
        // "exactly one, the first line"
        Form::Zone(_) => before.is_empty(),
        // "directly after `Z` or another `T`"; "at most 32"
        Form::Transition(..) => {
            let after_zone = matches!(
                before.last(),
                Some(Line::Zone(_)) | Some(Line::Transition(_))
            );
            after_zone && transitions(before) < MOST_TRANSITIONS
        }
        _ => !before.is_empty(),
    }
}

fn transitions(lines: &[Line]) -> usize {
    let is_transition = |line: &&Line| matches!(line, Line::Transition(_));
    lines.iter().filter(is_transition).count()
}
