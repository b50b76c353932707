//! Sheets with something wrong, or with something that is just right: for each refusal number 1 to 8.

use super::bad_lines::{at_an_edge, malformed, together};
use super::zones::offset_text;
use super::{crowded_sheet, rule_line, short_sheet, text_of, zone_lines};
use crate::local::{is_local_minute, minute_of, written};
use crate::random::Random;
use crate::sheet::{read, zone_of};
use crate::zone::OFFSETS;

/// A sheet that is mostly refused by this number; any other number is for a sheet with random bytes changed.
pub fn bad_sheet(number: u64, random: &mut Random) -> Vec<u8> {
    match number {
        1 => long_sheet(random),
        2 => with_bad_bytes(random),
        3 => with_line(malformed(random), random).into_bytes(),
        4 => out_of_place(random).into_bytes(),
        5 => with_line(at_an_edge(random), random).into_bytes(),
        6 => with_line(together(random), random).into_bytes(),
        7 => at_the_zone_limits(random).into_bytes(),
        8 => with_moved_start(random).into_bytes(),
        _ => with_bytes_changed(random),
    }
}

/// A sheet that is refused by this number, 1 to 8.
pub fn refused_sheet(number: u64, random: &mut Random) -> Vec<u8> {
    loop {
        let text = bad_sheet(number, random);
        if matches!(read(&text), Err(refusal) if refusal.number == number) {
            return text;
        }
    }
}

/// The lines of a taken sheet, each without LF.
fn some_lines(random: &mut Random) -> Vec<String> {
    short_sheet(random).lines().map(str::to_string).collect()
}

fn place_in(lines: &[String], random: &mut Random) -> usize {
    random.between(0, lines.len() as i64) as usize
}

/// One line more: as the last, or at any place.
fn with_line(line: String, random: &mut Random) -> String {
    let mut lines = some_lines(random);
    let place = match random.between(0, 3) {
        0 => place_in(&lines, random),
        _ => lines.len(),
    };
    lines.insert(place, line);
    text_of(&lines)
}

/// 64 lines and one more, or bytes around the most.
fn long_sheet(random: &mut Random) -> Vec<u8> {
    let full = crowded_sheet(random);
    match random.between(0, 5) {
        0 => full.into_bytes(),
        1 => (full + "D 20260105T0600\n").into_bytes(),
        2 => (full + "D").into_bytes(),
        3 => vec![b'\n'; random.between(63, 66) as usize],
        4 => lines_of(256, 64, random.between(0, 1)),
        _ => lines_of(16_447, 1, random.between(0, 1)),
    }
}

/// So many lines, each of so many bytes, and some bytes more.
fn lines_of(length: usize, lines: usize, more: i64) -> Vec<u8> {
    let line = format!("Z {}\n", "0".repeat(length - 2));
    let rest = "0".repeat(more as usize);
    (line.repeat(lines) + &rest).into_bytes()
}

/// A byte that no line has, a last line without LF, or a line of about 256 bytes.
fn with_bad_bytes(random: &mut Random) -> Vec<u8> {
    let foreign = [0x00, 0x09, 0x0D, 0x1F, 0x7F, 0x80, 0xC3, 0xFF];
    let mut bytes = text_of(&some_lines(random)).into_bytes();
    match random.between(0, 3) {
        0 => {
            bytes.pop();
        }
        1 => {
            let line = long_line(random.between(255, 257) as usize);
            bytes.extend(text_of(&[line]).into_bytes());
        }
        _ => {
            let place = random.between(0, bytes.len() as i64 - 1) as usize;
            bytes.insert(place, foreign[random.between(0, 7) as usize]);
        }
    }
    bytes
}

/// A C line of so many bytes.
fn long_line(length: usize) -> String {
    let ends = "C 7 * * * *".len();
    let numbers = "59,".repeat(length);
    format!("C {}7 * * * *", &numbers[numbers.len() - (length - ends)..])
}

/// A line that stands at another place, once more or not at all.
fn out_of_place(random: &mut Random) -> String {
    let mut lines = some_lines(random);
    let from = random.between(0, lines.len() as i64 - 1) as usize;
    match random.between(0, 4) {
        0 => {
            let line = lines.remove(from);
            let to = place_in(&lines, random);
            lines.insert(to, line);
        }
        1 => {
            let to = place_in(&lines, random);
            lines.insert(to, lines[from].clone());
        }
        2 => {
            lines.remove(0);
        }
        3 => lines = many_transitions(random.between(32, 34)),
        _ => lines.insert(from, at_an_edge(random)),
    }
    text_of(&lines)
}

/// A Z line and so many T lines.
fn many_transitions(number: i64) -> Vec<String> {
    let transition = |number| {
        let offset = number % 2 * 60;
        format!("T {} {}", written(number * 2_880), offset_text(offset))
    };
    let zone = "Z +0000".to_string();
    let transitions = (1..=number).map(transition);
    [zone].into_iter().chain(transitions).collect()
}

/// One T line more, at about the least distance and with about the greatest change.
fn at_the_zone_limits(random: &mut Random) -> String {
    let mut lines = zone_lines(random);
    lines.truncate(random.between(1, 6) as usize);
    let zone = zone_of(&read(text_of(&lines).as_bytes()).unwrap_or_default());
    let last = zone.transitions.last();
    let (instant, offset) = last.map_or((0, zone.first_offset), |last| (last.instant, last.offset));
    let (instant, offset) = loop {
        let next = near_the_limits(instant, offset, random);
        if is_local_minute(next.0) && OFFSETS.contains(&next.1) {
            break next;
        }
    };
    lines.push(format!("T {} {}", written(instant), offset_text(offset)));
    lines.push("D 20260105T0600".to_string());
    text_of(&lines)
}

/// A transition after one at this instant with this offset, at both sides of a limit.
fn near_the_limits(instant: i64, offset: i64, random: &mut Random) -> (i64, i64) {
    let distances = [2_879, 2_880, 60_000, 0, -1];
    let changes = [1, 180, 181, 0];
    let change = changes[random.between(0, 3) as usize] * (2 * random.between(0, 1) - 1);
    let distance = distances[random.between(0, 4) as usize];
    (instant + distance, offset + change)
}

/// A rule whose start is moved by days, or whose end is about its start.
fn with_moved_start(random: &mut Random) -> String {
    let line = rule_line(random);
    let (start, parts) = line[2..].split_at(13);
    let minute = minute_of_text(start);
    let moved = match random.between(0, 2) {
        0 => {
            let until = written(minute + random.between(-1, 0));
            format!("{start} FREQ=DAILY;UNTIL={until}")
        }
        _ => {
            let days = random.between(-40, 40);
            format!("{}{parts}", written(minute + days * 1_440))
        }
    };
    with_line(format!("R {moved}"), random)
}

/// The local minute of a written time.
fn minute_of_text(text: &str) -> i64 {
    let number = |from: usize, to: usize| text[from..to].parse().unwrap_or(0);
    minute_of(
        number(0, 4),
        number(4, 6),
        number(6, 8),
        number(9, 11),
        number(11, 13),
    )
    .unwrap_or(0)
}

/// One to three bytes changed, left out or put in.
fn with_bytes_changed(random: &mut Random) -> Vec<u8> {
    let mut bytes = text_of(&some_lines(random)).into_bytes();
    for _ in 0..random.between(1, 3) {
        let place = random.between(0, bytes.len() as i64 - 1) as usize;
        let other = b"0123459T+-,;=* \nZTCRDXM"[random.between(0, 22) as usize];
        match random.between(0, 2) {
            0 => bytes[place] = other,
            1 => bytes.insert(place, other),
            _ => {
                bytes.remove(place);
            }
        }
    }
    bytes
}
