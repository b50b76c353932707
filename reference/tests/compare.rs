//! The comparison itself: the reference as a driver agrees, and each kind of wrong driver is caught.

use std::time::{Duration, Instant};

use reference::compare::{compare, Tally};
use reference::hex::word_of;
use reference::{cases_dates, cases_plans};

const BINARY: &str = env!("CARGO_BIN_EXE_reference");
const ASKED: u64 = 1000;
const PATIENCE: Duration = Duration::from_secs(60);

/// The words of a driver that is a shell line, in which `REFERENCE` answers rightly.
fn driver(shell_line: &str) -> [String; 3] {
    let line = shell_line.replace("REFERENCE", &format!("'{BINARY}' answer"));
    ["sh", "-c", line.as_str()].map(str::to_string)
}

fn requests() -> impl Iterator<Item = String> {
    cases_dates::requests(1, 0).take(ASKED as usize)
}

fn tally(shell_line: &str) -> Tally {
    compare(&driver(shell_line), PATIENCE, requests())
}

#[test]
fn a_right_driver_is_good() {
    let tally = tally("REFERENCE");
    assert!(tally.is_good());
    assert_eq!(tally.compared, ASKED);
}

#[test]
fn a_wrong_answer_is_caught() {
    assert_eq!(tally("REFERENCE | sed '7s/$/0/'").differ, 1);
    assert_eq!(tally("REFERENCE | sed '7s/$/ /'").differ, 1);
    assert_eq!(tally("cat").differ, ASKED);
}

#[test]
fn too_few_answers_are_caught() {
    assert_eq!(tally("REFERENCE | head -n 990").differ, 10);
    assert_eq!(tally("true").differ, ASKED);
}

#[test]
fn too_many_answers_are_caught() {
    assert!(!tally("REFERENCE; echo 0 0").is_good());
    assert!(!tally("yes").is_good());
}

#[test]
fn a_tail_without_lf_is_caught() {
    assert_eq!(tally("REFERENCE | head -c -1").differ, 1);
}

#[test]
fn an_early_death_is_caught() {
    assert_eq!(tally("REFERENCE; exit 3").differ, 1);
    assert_eq!(tally("REFERENCE; kill -9 $$").differ, 1);
    assert!(!tally("exit 1").is_good());
}

#[test]
fn a_driver_that_cannot_start_is_caught() {
    let words = ["no-such-driver".to_string()];
    assert!(!compare(&words, PATIENCE, cases_dates::requests(1, 0).take(9)).is_good());
    assert!(!compare(&[], PATIENCE, cases_dates::requests(1, 0).take(9)).is_good());
}

/// At once, after some answers, after all of them, and after the end of its output.
#[test]
fn a_driver_that_hangs_is_killed() {
    for line in [
        "exec sleep 600",
        "REFERENCE | head -n 5; exec sleep 600",
        "REFERENCE; exec sleep 600",
        "REFERENCE; exec sleep 600 >&-",
        "exec cat /dev/zero",
    ] {
        let began = Instant::now();
        let tally = compare(&driver(line), Duration::from_secs(1), requests());
        assert!(!tally.is_good(), "{line}");
        assert!(began.elapsed() < Duration::from_secs(60), "{line}");
    }
}

#[test]
fn nothing_compared_is_not_good() {
    let words = ["true".to_string()];
    assert!(!compare(&words, PATIENCE, std::iter::empty()).is_good());
}

/// The outcome for fifty damaged plans, a load check each, and five answers in turn of a plan of one zone and two
/// extra minutes, of which two are instants.
fn tally_of_plans(shell_line: &str) -> Tally {
    let plan = word_of(b"010000\n0500000007\n0500000009\nFF03\n");
    let requests = cases_plans::requests(1, 0).take(50);
    let requests = requests.chain([format!("next {plan} 0 5")]);
    compare(&driver(shell_line), PATIENCE, requests)
}

#[test]
fn every_answer_of_a_line_is_compared() {
    let good = tally_of_plans("REFERENCE");
    assert!(good.is_good());
    assert_eq!(good.compared, 50 + 3); // 7, 9, and then none
    assert_eq!(tally_of_plans("REFERENCE | sed '51s/,/0,/'").differ, 1);
    assert_eq!(tally_of_plans("REFERENCE | sed '51s/$/0/'").differ, 1);
    assert_eq!(tally_of_plans("REFERENCE | sed '51s/$/,0 0 0/'").differ, 1);
    assert_eq!(tally_of_plans("REFERENCE | sed '51s/,.*//'").differ, 2);
    assert_eq!(tally_of_plans("REFERENCE | sed '7s/10 /10 9/'").differ, 1);
}
