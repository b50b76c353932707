//! The sheet, read from its bytes: its lines, or its refusal 1 to 8.

pub mod line;

mod form;
mod parts;
mod place;
mod range;

pub use range::CRON_FIELDS;

use crate::meaning::rule::start_is_occurrence;
use crate::zone::Zone;
use line::Line;

/// "At most 64 lines, each at most 256 bytes and then LF"; "sheet over 16,448 bytes".
const MOST_LINES: usize = 64;
const MOST_LINE_BYTES: usize = 256;
pub const MOST_BYTES: usize = 16_448;

/// A refusal's number and line, and the bad line without LF as a part of the sheet.
#[derive(Clone, Copy, Debug, PartialEq, Eq)]
pub struct Refusal {
    pub number: u64,
    pub line: u64,
    pub bad_at: u64,
    pub bad_length: u64,
}

impl Refusal {
    /// "empty for line 0 or past the end".
    pub fn without_line(number: u64, line: u64) -> Refusal {
        Refusal {
            number,
            line,
            bad_at: 0,
            bad_length: 0,
        }
    }
}

/// The taken lines. "1 comes first; then the first bad line decides".
pub fn read(sheet: &[u8]) -> Result<Vec<Line>, Refusal> {
    // "a tail without LF is a line"
    let pieces: Vec<&[u8]> = sheet.split_inclusive(|&byte| byte == b'\n').collect();
    if sheet.len() > MOST_BYTES || pieces.len() > MOST_LINES {
        return Err(Refusal::without_line(1, 0));
    }
    if pieces.is_empty() {
        return Err(Refusal::without_line(4, 1));
    }
    let mut lines = Vec::new();
    let mut bad_at = 0;
    for piece in pieces {
        let taken = read_piece(&lines, piece).map_err(|number| Refusal {
            number,
            line: lines.len() as u64 + 1,
            bad_at,
            bad_length: piece.strip_suffix(b"\n").unwrap_or(piece).len() as u64,
        })?;
        lines.push(taken);
        bad_at += piece.len() as u64;
    }
    Ok(lines)
}

/// Refusal 2: "line without LF".
fn read_piece(before: &[Line], piece: &[u8]) -> Result<Line, u64> {
    read_line(before, piece.strip_suffix(b"\n").ok_or(2_u64)?)
}

/// One line, without its LF, after those before it, or "the lowest of 2 to 8 that applies".
pub fn read_line(before: &[Line], line: &[u8]) -> Result<Line, u64> {
    let text = text_of(line).ok_or(2_u64)?;
    let written = form::read(text).ok_or(3_u64)?;
    if !place::allows(before, &written) {
        return Err(4);
    }
    let in_range = range::read(written).ok_or(5_u64)?;
    let line = parts::put_together(in_range).ok_or(6_u64)?;
    if !transition_limits_hold(before, &line) {
        return Err(7);
    }
    if !start_holds(&line) {
        return Err(8);
    }
    Ok(line)
}

/// Refusal 2: "over 256 bytes, or a byte outside 20 to 7E".
fn text_of(line: &[u8]) -> Option<&str> {
    let all_named = line.iter().all(|byte| (0x20..=0x7E).contains(byte));
    if line.len() > MOST_LINE_BYTES || !all_named {
        return None;
    }
    std::str::from_utf8(line).ok()
}

/// Refusal 7: "transition limits".
fn transition_limits_hold(before: &[Line], line: &Line) -> bool {
    match line {
        Line::Transition(transition) => zone_of(before).allows(transition),
        _ => true,
    }
}

/// Refusal 8: "start not an occurrence of its rule (COUNT and UNTIL left out), or UNTIL before start".
fn start_holds(line: &Line) -> bool {
    match line {
        Line::Rule(rule) => {
            start_is_occurrence(rule) && rule.until.map_or(true, |until| until >= rule.start)
        }
        _ => true,
    }
}

/// The zone that the Z and T lines say.
pub fn zone_of(lines: &[Line]) -> Zone {
    let mut zone = Zone::default();
    for line in lines {
        match line {
            Line::Zone(offset) => zone.first_offset = *offset,
            Line::Transition(transition) => zone.transitions.push(transition.clone()),
            _ => {}
        }
    }
    zone
}
