//! The suite `program`: what it asks, and that each kind of wrong program is caught.

use std::collections::{BTreeMap, BTreeSet};
use std::time::{Duration, Instant};

use reference::cases_sheets::lengths::longest_plan;
use reference::compare::Tally;
use reference::program::{cases, compare, written, Case, Input, Output};
use reference::sheet::read;

const BINARY: &str = env!("CARGO_BIN_EXE_reference");
const PATIENCE: Duration = Duration::from_secs(60);

/// The words of a program that is a shell line, in which `REFERENCE` compiles rightly.
fn shell(line: &str) -> [String; 3] {
    let line = line.replace("REFERENCE", &format!("'{BINARY}' compile"));
    ["sh", "-c", line.as_str()].map(str::to_string)
}

/// The same where Rust does otherwise: it opens a closed standard input again, and goes on after a pipe that nobody reads.
fn program(line: &str) -> [String; 3] {
    shell(&format!(
        "true 2>/dev/null 3<&0 || exit 0
        {{ {line}; }} | cat 2>/dev/null
        [ $? -ne 141 ] || {{
            echo 'Error: Os {{ code: 32, kind: BrokenPipe, message: \"Broken pipe\" }}' >&2
            exit 1
        }}"
    ))
}

/// Every 13th of the cases, and all that are not only a sheet that is read.
fn some_cases() -> impl Iterator<Item = Case> {
    let all = cases::all(1, 0).into_iter().enumerate();
    let some = all.filter(|(place, case)| place % 13 == 0 || way(case).is_none());
    some.map(|(_, case)| case)
}

fn tally(line: &str) -> Tally {
    compare(&program(line), PATIENCE, some_cases())
}

/// The outcome for the cases of this way alone.
fn tally_of(way_of: Option<&str>, words: &[String]) -> Tally {
    let cases = some_cases().filter(|case| way(case) == way_of);
    compare(words, PATIENCE, cases)
}

/// How a sheet comes that is read whole, and whose answer is taken.
fn way(case: &Case) -> Option<&'static str> {
    match (&case.input, &case.output) {
        (Input::AtOnce, Output::Taken) => Some("at once"),
        (Input::ByteByByte, Output::Taken) => Some("byte by byte"),
        (Input::InPieces(_), Output::Taken) => Some("in pieces"),
        _ => None,
    }
}

fn sheets_by_way() -> BTreeMap<&'static str, BTreeSet<Vec<u8>>> {
    let mut ways: BTreeMap<_, BTreeSet<_>> = BTreeMap::new();
    for case in cases::all(1, 1) {
        if let Some(way) = way(&case) {
            ways.entry(way).or_default().insert(case.sheet);
        }
    }
    ways
}

/// Different sheets, at both sides of each limit, of every refusal and cut in the middle.
#[test]
fn each_way_has_all_sorts_of_sheets() {
    let ways = sheets_by_way();
    assert_eq!(ways.len(), 3);
    for (way, sheets) in ways {
        assert!(sheets.len() >= 150, "{way}: {}", sheets.len());
        let lines = |sheet: &Vec<u8>| sheet.split_inclusive(|&byte| byte == b'\n').count();
        for wanted in [0, 1, 16_447, 16_448, 16_449, 20_000, 65_601] {
            let asked = sheets.iter().any(|sheet| sheet.len() == wanted);
            assert!(asked, "{way}: {wanted} bytes");
        }
        for (wanted, ended) in [(64, true), (64, false), (65, true), (65, false)] {
            let mut short = sheets.iter().filter(|sheet| sheet.len() < 16_000);
            let asked = short.any(|s| lines(s) == wanted && s.ends_with(b"\n") == ended);
            assert!(asked, "{way}: {wanted} lines");
        }
        for wanted in 0..=8 {
            let number = |sheet: &Vec<u8>| read(sheet).map_or_else(|refusal| refusal.number, |_| 0);
            let asked = sheets.iter().filter(|sheet| number(sheet) == wanted);
            assert!(asked.count() >= 4, "{way}: refusal {wanted}");
        }
        let longest = sheets.iter().map(|sheet| written(sheet).len()).max();
        assert_eq!(longest, Some(5_241), "{way}");
    }
}

#[test]
fn the_answers_of_the_document() {
    assert_eq!(written(b"Z +0100\n"), "01003C\nFF01\n");
    assert_eq!(written(b"Z +0100\nD 20260105T2400\n"), "5 2\n");
    assert_eq!(written(b""), "4 1\n");
    assert_eq!(written(&[b'\n'; 65]), "1 0\n");
    assert_eq!(written(longest_plan().as_bytes()).len(), 5_241);
}

#[test]
fn a_right_program_is_good() {
    let tally = tally("REFERENCE");
    assert!(tally.is_good());
    assert!(tally.compared > 100);
}

/// One that drops the last LF, or the line's number; that writes a byte more, nothing, one fixed plan or refusal; that reads a
/// byte, or a line; that cuts a sheet that is too long; that speaks on standard error; that is killed.
#[test]
fn wrong_programs_are_caught() {
    for line in [
        "REFERENCE | head -c -1",
        "REFERENCE | sed -E 's/^([1-8]) .*/\\1/'",
        "REFERENCE; echo",
        "cat >/dev/null 2>&1",
        "cat >/dev/null 2>&1; printf '01003C\\nFF01\\n'",
        "cat >/dev/null 2>&1; echo 3 1",
        "head -c 1 2>/dev/null | REFERENCE",
        "head -n 1 2>/dev/null | REFERENCE",
        "head -c 16448 2>/dev/null | REFERENCE",
        "REFERENCE; echo done >&2",
        "REFERENCE; kill -s TERM $$",
    ] {
        let tally = tally(line);
        assert!(tally.differ >= 3, "{line}: {}", tally.differ);
        assert!(tally.compared > 100);
    }
}

/// Bytes that come at once do not show a program that reads once.
#[test]
fn a_single_read_is_caught() {
    let once = program("dd bs=20000 count=1 2>/dev/null | REFERENCE");
    assert!(tally_of(Some("at once"), &once).is_good());
    for way in ["byte by byte", "in pieces"] {
        let tally = tally_of(Some(way), &once);
        assert!(tally.differ * 2 > tally.compared, "{way}");
    }
}

/// A program that takes a failed read for the end of the sheet, and one that says that it cannot write.
#[test]
fn what_is_done_of_failures_is_compared() {
    assert!(tally_of(None, &program("REFERENCE")).is_good());
    assert!(tally_of(None, &program("cat 2>/dev/null | REFERENCE")).differ > 10);
    assert!(tally_of(None, &shell("REFERENCE | cat")).differ >= 4);
}

#[test]
fn the_exit_status_is_compared() {
    let tally = tally_of(Some("at once"), &shell("REFERENCE; exit 1"));
    assert_eq!((tally.compared > 9, tally.differ), (true, tally.compared));
}

/// At once, after the answer, after the end of its output, and where a child of it keeps that open; and an endless answer.
#[test]
fn a_program_that_does_not_end_is_caught() {
    for line in [
        "exec sleep 600",
        "REFERENCE; exec sleep 600",
        "REFERENCE; exec sleep 600 >&- 2>&-",
        "sleep 9 & REFERENCE",
        "exec cat /dev/zero",
    ] {
        let began = Instant::now();
        let cases = cases::all(1, 0).into_iter().skip(100).take(2);
        let tally = compare(&shell(line), Duration::from_secs(1), cases);
        assert!(!tally.is_good(), "{line}");
        assert!(began.elapsed() < Duration::from_secs(60), "{line}");
    }
}

#[test]
fn a_program_that_cannot_start_is_caught() {
    let words = ["no-such-program".to_string()];
    assert!(!compare(&words, PATIENCE, some_cases().take(9)).is_good());
    assert!(!compare(&[], PATIENCE, some_cases().take(9)).is_good());
}
