//! The protocol's requests about one sheet line and what stands before it, as `host/line_driver.c` answers them.

use std::cell::RefCell;

use crate::compile::line_text;
use crate::local::MINUTES_OF_A_DAY;
use crate::sheet::line::Line;
use crate::sheet::read_line;
use crate::shown::{bytes_of, shown};
use crate::zone::{Transition, LEAST_DISTANCE};

/// What stands before a line.
#[derive(Clone, Copy, Debug, PartialEq, Eq)]
pub enum Before {
    Nothing,
    /// A Z and so many T.
    Zone {
        changes: i64,
    },
    Lines,
}

/// What stands before a line, the least instant of a next transition and the offset before it. After a Z alone
/// every instant is allowed, so that 0 and every lower number are the least.
#[derive(Clone, Copy, Debug, PartialEq, Eq)]
pub struct Context {
    pub before: Before,
    pub low: i64,
    pub offset: i64,
}

/// At most so many T are written out: far too many already, so that more of them change no answer.
const MOST_WRITTEN: i64 = 1_000;

impl Context {
    /// The four numbers of the entry. Instants and offsets are moved up by a day, both are 0 where nothing stands before.
    fn numbers(&self) -> [i64; 4] {
        let (low, offset) = (self.low + MINUTES_OF_A_DAY, self.offset + MINUTES_OF_A_DAY);
        match self.before {
            Before::Nothing => [0, 0, 0, 0],
            Before::Zone { changes } => [1, changes, low, offset],
            Before::Lines => [2, 0, low, offset],
        }
    }

    fn of_numbers(numbers: [i64; 4]) -> Option<Context> {
        let [before, changes, low, offset] = numbers;
        Some(Context {
            before: match before {
                0 => Before::Nothing,
                1 => Before::Zone { changes },
                2 => Before::Lines,
                _ => return None,
            },
            low: low - MINUTES_OF_A_DAY,
            offset: offset - MINUTES_OF_A_DAY,
        })
    }

    /// Lines that stand before in this way. Of the transitions all but the number and the last are left open: they are
    /// the last one's equals.
    fn lines(&self) -> Vec<Line> {
        let zone = Line::Zone(self.offset);
        let last = || {
            Line::Transition(Transition {
                instant: self.low - LEAST_DISTANCE,
                offset: self.offset,
            })
        };
        match self.before {
            Before::Nothing => Vec::new(),
            Before::Zone { changes } => {
                let transitions = (0..changes.min(MOST_WRITTEN)).map(|_| last());
                [zone].into_iter().chain(transitions).collect()
            }
            Before::Lines => vec![zone, Line::Extra(0)],
        }
    }
}

/// The request for a line, without its LF, and a buffer of so many bytes.
pub fn request(context: &Context, room: i64, line: &[u8]) -> String {
    let [before, changes, low, offset] = context.numbers();
    let line = shown(line);
    format!("line {before} {changes} {low} {offset} {room} {line}")
}

/// `NUMBER LENGTH FRAME`; a frame for which the buffer has no room is not written. None if the request is none about a line.
pub fn answer(request: &str) -> Option<String> {
    let mut words = request.splitn(7, ' ').skip(1);
    let mut number = || words.next()?.parse::<i64>().ok();
    let numbers = [number()?, number()?, number()?, number()?];
    let room = number()?;
    let line = bytes_of(words.next()?)?;
    let context = Context::of_numbers(numbers)?;
    Some(match answer_in(&context, &line) {
        Ok(frame) if frame.len() as i64 > room => "0 0 -".to_string(),
        Ok(frame) => format!("0 {} {}", frame.len(), shown(frame.as_bytes())),
        Err(number) => format!("{number} 0 -"),
    })
}

/// The frame's line, or the refusal's number.
pub fn answer_in(context: &Context, line: &[u8]) -> Result<String, u64> {
    let taken = read_line(&context.lines(), line)?;
    Ok(frame_of(&taken, line))
}

thread_local! {
    /// The line that was taken last, and its frame: COUNT is not counted again for the same line in another place.
    static LAST: RefCell<Option<(Vec<u8>, String)>> = const { RefCell::new(None) };
}

fn frame_of(taken: &Line, line: &[u8]) -> String {
    LAST.with(|last| {
        let mut last = last.borrow_mut();
        match &*last {
            Some((asked, frame)) if asked == line => frame.clone(),
            _ => {
                let frame = line_text(taken);
                *last = Some((line.to_vec(), frame.clone()));
                frame
            }
        }
    })
}
