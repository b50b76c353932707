//! The refusals 1 to 8 of a sheet, with their lines, and the bad line's place.

mod bytes;
mod form;
mod numbers;
mod place;

use reference::entries::{compile, Compiled};

pub fn answer(sheet: &[u8]) -> Compiled {
    compile(sheet, usize::MAX).0
}

/// Number and line of a sheet.
pub fn refusal(sheet: &str) -> (u64, u64) {
    let compiled = answer(sheet.as_bytes());
    (compiled.number, compiled.line)
}

/// Each line is refused with this number as the second line, after a Z line.
pub fn second_line(number: u64, lines: &[&str]) {
    for line in lines {
        let wanted = if number == 0 { (0, 0) } else { (number, 2) };
        assert_eq!(refusal(&format!("Z +0100\n{line}\n")), wanted, "{line}");
    }
}

/// Each line is refused with this number as the first line.
pub fn first_line(number: u64, lines: &[&str]) {
    for line in lines {
        let wanted = if number == 0 { (0, 0) } else { (number, 1) };
        assert_eq!(refusal(&format!("{line}\n")), wanted, "{line}");
    }
}

#[test]
fn taken_lines() {
    first_line(0, &["Z +0000", "Z -1200", "Z +1400", "Z -0001", "Z +0059"]);
    second_line(
        0,
        &[
            "T 20000101T0000 +0200",
            "C * * * * *",
            "C 0000,05,1-3,59-59 0-23 1-31 1-12 0-6",
            "C 0 0 30 2 *",
            "D 20240229T0000",
            "X 20991231T2359",
            "R 20260131T0600 FREQ=MONTHLY",
            "R 20260131T0600 COUNT=9999;INTERVAL=999;FREQ=DAILY",
            "R 20260131T0600 COUNT=0001;INTERVAL=0999;FREQ=DAILY",
            "R 20260131T0600 FREQ=WEEKLY;BYDAY=SA,SA,SU",
            "R 20260131T0600 FREQ=MONTHLY;BYDAY=+0005SA,-5MO,-1SA;BYMONTHDAY=+31,-0001",
            "R 20260131T0600 FREQ=MONTHLY;BYMONTHDAY=31;BYSETPOS=+1,-31,31",
            "R 20260131T0600 FREQ=DAILY;BYMONTHDAY=31;BYDAY=SA",
            "R 20260131T0600 FREQ=DAILY;UNTIL=20260131T0600",
            "R 20260131T060000 FREQ=DAILY;UNTIL=20260131T0600",
            "R 20260131T0600 UNTIL=20260131T060000;FREQ=DAILY",
            "T 20000101T000000 +0200",
            "D 20240229T000000",
            "X 20991231T235900",
            "R 20260131T0600 FREQ=DAILY;BYMONTH=1",
            "R 20260131T0600 FREQ=WEEKLY;BYMONTH=12,0001,1",
            "R 20260131T0600 FREQ=MONTHLY;BYMONTH=1;BYDAY=5SA;BYSETPOS=1",
            "R 20260131T0600 FREQ=YEARLY",
            "R 20260131T0600 BYMONTH=1,2,3,4,5,6,7,8,9,10,11,12;FREQ=YEARLY",
            "R 20260131T0600 FREQ=YEARLY;BYDAY=SA",
            "R 20260131T0600 FREQ=YEARLY;BYMONTHDAY=-1,31",
            "R 20260131T0600 FREQ=YEARLY;BYDAY=5SA,-5MO,TU;BYMONTH=1;BYMONTHDAY=31",
            "R 20260131T0600 FREQ=YEARLY;BYDAY=SA;BYSETPOS=5,31,-31",
            "R 20280229T0600 FREQ=YEARLY;INTERVAL=999;COUNT=9999",
        ],
    );
}

/// "the first bad line decides, and in it the lowest of 2 to 8 that applies".
#[test]
fn the_lowest_number_of_the_first_bad_line() {
    second_line(
        3,
        &[
            "Z +9999x",
            "C 60 * * * * *",
            "R 20260231T0600 FREQ=DAILY;COUNT=0;X=1",
        ],
    );
    first_line(
        4,
        &[
            "C 60 * * * *",
            "T 20261301T0000 +9999",
            "R 20260131T0600 COUNT=1",
        ],
    );
    second_line(4, &["Z +9999", "Z -0000"]);
    second_line(
        5,
        &[
            "R 20260131T0600 COUNT=0",
            "T 20260132T0000 +0100",
            "R 20260131T0600 FREQ=WEEKLY;BYDAY=9SA",
            "R 20260131T0600 FREQ=YEARLY;BYDAY=5SA;BYMONTH=13",
            "R 20260131T0600 BYMONTH=0;BYMONTH=1",
        ],
    );
    second_line(
        6,
        &[
            "R 20260131T0600 FREQ=YEARLY;BYDAY=1SU",
            "R 20260131T0600 FREQ=YEARLY;BYSETPOS=9;BYMONTH=2",
            "R 20260131T0600 FREQ=DAILY;COUNT=1;UNTIL=20260101T0000",
            "R 20260131T0600 FREQ=DAILY;BYDAY=SU,1SU",
        ],
    );
}

#[test]
fn the_first_bad_line_decides() {
    assert_eq!(refusal("Z +0000\nD 20260101T9900\nD\n"), (5, 2));
    assert_eq!(
        refusal("Z +0000\nR 20260131T0600 FREQ=DAILY;BYDAY=SU\nD"),
        (8, 2)
    );
    assert_eq!(
        refusal("Z +0000\nC * * * * *\nT 20260132T0000 +9999\n"),
        (4, 3)
    );
}

/// "an entry also shows the bad line as a part of the lent sheet without LF, empty for line 0 or past the end".
#[test]
fn the_bad_line() {
    let shown = |sheet: &str| {
        let compiled = answer(sheet.as_bytes());
        assert_eq!(compiled.length, 0);
        (compiled.line, compiled.bad_at, compiled.bad_length)
    };
    assert_eq!(shown(""), (1, 0, 0));
    assert_eq!(shown("\n"), (1, 0, 0));
    assert_eq!(shown("Z +0000\n\nD"), (2, 8, 0));
    assert_eq!(shown("Z +0000\nD\n"), (2, 8, 1));
    assert_eq!(shown("Z +0000\nD 20260101T0000"), (2, 8, 15));
    assert_eq!(
        shown("Z +0000\nD 20260101T0000\nX 20260229T0000\nQ\n"),
        (3, 24, 15)
    );
    assert_eq!(
        shown(&format!("Z +0000\n{}\n", "A".repeat(300))),
        (2, 8, 300)
    );
    assert_eq!(shown(&"A".repeat(16_448)), (1, 0, 16_448));
    assert_eq!(shown(&"A".repeat(16_449)), (0, 0, 0));
}
