//! Refusals 4 and 7: the place of a line and the limits of transitions.

use super::{first_line, refusal, second_line};

/// 4: "line out of place (also a first line other than Z), a 33rd T, or an empty sheet (line 1)".
#[test]
fn number_4() {
    assert_eq!(refusal(""), (4, 1));
    first_line(
        4,
        &[
            "C * * * * *",
            "T 20260329T0100 +0200",
            "D 20260101T0000",
            "X 20260101T0000",
        ],
    );
    first_line(4, &["R 20260131T0600 FREQ=DAILY"]);
    second_line(4, &["Z +0100", "Z +0200"]);
    assert_eq!(
        refusal("Z +0000\nC * * * * *\nT 20260329T0100 +0100\n"),
        (4, 3)
    );
    assert_eq!(refusal("Z +0000\nX 20260101T0000\nZ +0100\n"), (4, 3));
}

/// A Z line and so many T lines, at least 2,880 minutes apart.
fn transitions(many: usize) -> String {
    let days = (0..many).map(|number| 1 + 2 * number);
    let lines = days.enumerate().map(|(number, day)| {
        let (month, day) = (1 + day / 28, 1 + day % 28);
        let offset = 1 + number % 2;
        format!("T 2026{month:02}{day:02}T0000 +0{offset}00\n")
    });
    format!("Z +0000\n{}", lines.collect::<String>())
}

#[test]
fn transition_lines_32_and_33() {
    assert_eq!(refusal(&transitions(32)), (0, 0));
    assert_eq!(refusal(&transitions(33)), (4, 34));
    assert_eq!(refusal(&format!("{}T 2026\n", transitions(32))), (3, 34));
    assert_eq!(
        refusal(&format!("{}T 20001301T0000 +9900\n", transitions(32))),
        (4, 34)
    );
}

/// 7: "transition limits", of the later of two transitions.
#[test]
fn number_7() {
    let first = "Z +0000\nT 20260101T0000 +0100\n";
    let with = |line: &str| refusal(&format!("{first}{line}\n"));
    assert_eq!(with("T 20260103T0000 +0000"), (0, 0));
    assert_eq!(with("T 20260102T2359 +0000"), (7, 3));
    assert_eq!(with("T 20260101T0000 +0000"), (7, 3));
    assert_eq!(with("T 20251201T0000 +0000"), (7, 3));
    assert_eq!(with("T 20260103T0000 +0100"), (7, 3));
    assert_eq!(with("T 20260103T0000 +0400"), (0, 0));
    assert_eq!(with("T 20260103T0000 +0401"), (7, 3));
    assert_eq!(with("T 20260103T0000 -0200"), (0, 0));
    assert_eq!(with("T 20260103T0000 -0201"), (7, 3));
    second_line(
        0,
        &[
            "T 20260101T0000 +0400",
            "T 20260101T0000 -0200",
            "T 20260101T0000 +0101",
        ],
    );
    second_line(
        7,
        &[
            "T 20260101T0000 +0401",
            "T 20260101T0000 -0201",
            "T 20260101T0000 +0100",
        ],
    );
}
