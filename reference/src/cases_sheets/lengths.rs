//! Sheets of about 16,448 bytes and of about 64 lines, with and without a last LF, and far longer ones.

use super::EXAMPLE;
use crate::cases_lines::lengths::lists_of;
use crate::local::written;
use crate::sheet::MOST_BYTES;

const ZONE: &[u8] = b"Z +0100\n";
const EXTRA: &[u8] = b"D 20260329T0230\n";

/// Numbers of lines at which a sheet is refused, about 64 and where the number is cut to 6, 7, 8 or 9 bits.
const NUMBERS: [usize; 16] = [
    65, 66, 67, 68, 69, 70, 127, 128, 129, 130, 132, 256, 257, 260, 320, 516,
];

/// What else a sheet may end with.
const TAILS: [&[u8]; 4] = [b"", b"\n", b"D", b" \n"];

pub fn all() -> Vec<Vec<u8>> {
    let mut all = vec![Vec::new()];
    all.extend((0..=255).map(|byte| vec![byte]));
    all.extend(numbers_of_lines());
    all.extend(about_most_bytes());
    all.extend(long_lines());
    all.extend(cut_to_less());
    let more = all.clone().into_iter();
    let more = more.filter(|sheet| (2..2 * MOST_BYTES).contains(&sheet.len()));
    let tails = more.flat_map(|sheet| TAILS.map(|tail| with_tail(&sheet, tail)));
    all.extend(tails);
    all
}

/// The sheet with more bytes at its end; without its last byte where there are none.
fn with_tail(sheet: &[u8], tail: &[u8]) -> Vec<u8> {
    match tail {
        [] => sheet[..sheet.len() - 1].to_vec(),
        tail => [sheet, tail].concat(),
    }
}

/// A zone and extra times, which are taken up to 64 lines; a fault in the first or in the last line; and empty lines.
fn numbers_of_lines() -> Vec<Vec<u8>> {
    let mut all = Vec::new();
    for number in (1..=64).chain(NUMBERS) {
        let extras = EXTRA.repeat(number - 1);
        all.push([ZONE, &extras].concat());
        all.push([EXTRA, &extras].concat());
        all.push([ZONE, &extras[EXTRA.len().min(extras.len())..], b"D\n"].concat());
        all.push(vec![b'\n'; number]);
    }
    all
}

/// Long lines that are taken, then one that fills up the sheet: as the last line, and with an LF or without it.
fn about_most_bytes() -> Vec<Vec<u8>> {
    let mut all = Vec::new();
    for length in MOST_BYTES - 2..=MOST_BYTES + 2 {
        for lines in [0, 1, 2, 33, 62, 63, 64] {
            let taken = longest_taken(lines);
            let fill = length.saturating_sub(taken.len());
            for end in [b' ', b'\n'] {
                let filler = [vec![b' '; fill.saturating_sub(1)], vec![end]].concat();
                all.push([taken.as_slice(), &filler].concat());
            }
        }
        all.push(vec![b'\n'; length]);
        all.push(vec![b'0'; length]);
    }
    let line = [lists_of(256)[0].as_slice(), b"\n"].concat();
    all.extend([63, 64, 65].map(|lines| line.repeat(lines)));
    all.extend([1, 2, 63, 64].map(longest_taken));
    all
}

/// A zone and lines of 256 bytes, so many lines in all: no taken sheet of so many lines is longer.
pub fn longest_taken(lines: usize) -> Vec<u8> {
    let zone = [ZONE.to_vec()].into_iter();
    let lists = lists_of(256).into_iter().cycle();
    let others = lists.map(|list| [list.as_slice(), b"\n"].concat());
    let all: Vec<Vec<u8>> = zone.chain(others).take(lines).collect();
    all.concat()
}

/// A zone and 63 rules, each with another start: no plan is longer than this sheet's 5,241 bytes.
pub fn longest_plan() -> String {
    let rules = (0..63).map(|minute| format!("R {} FREQ=DAILY\n", written(minute)));
    ["Z +0100\n".to_string()].into_iter().chain(rules).collect()
}

/// A line of about 256 bytes at each of some places.
fn long_lines() -> Vec<Vec<u8>> {
    let mut all = Vec::new();
    for length in [255, 256, 257, 258, 511, 512, 513] {
        for line in lists_of(length) {
            for before in [0, 1, 30, 62] {
                let before = EXTRA.repeat(before);
                all.push([ZONE, &before, &line, b"\n", EXTRA].concat());
            }
        }
    }
    all
}

/// Sheets of which the example, or nothing, would be left if the length were cut to 16 bits; and less far above the most.
fn cut_to_less() -> Vec<Vec<u8>> {
    let example = EXAMPLE.as_bytes();
    let more = [65_536, 131_072].map(|length| length + example.len());
    let less = [20_000, 2 * MOST_BYTES, 65_535, 65_536];
    let mut all = Vec::new();
    for length in less.into_iter().chain(more) {
        for filler in [b" ", b"0", b"\n", b"\0"] {
            let filler = filler.repeat(length - example.len());
            all.push([example, &filler].concat());
        }
    }
    all
}
