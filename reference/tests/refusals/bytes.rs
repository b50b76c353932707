//! Refusals 1 and 2: the bytes of the sheet and of a line.

use super::{answer, refusal, second_line};

/// 1: "sheet over 16,448 bytes or over 64 lines (a tail without LF is a line); line 0".
#[test]
fn number_1_comes_first() {
    let lines_64 = format!("Z +0000\n{}", "D 20260101T0000\n".repeat(63));
    assert_eq!(refusal(&lines_64), (0, 0));
    assert_eq!(refusal(&format!("{lines_64}D 20260101T0000\n")), (1, 0));
    assert_eq!(refusal(&format!("{lines_64}D")), (1, 0));
    assert_eq!(refusal(&format!("{lines_64}\n")), (1, 0));
    assert_eq!(refusal(&"\n".repeat(64)), (3, 1));
    assert_eq!(refusal(&"\n".repeat(65)), (1, 0));
    assert_eq!(refusal(&"A".repeat(16_448)), (2, 1));
    assert_eq!(refusal(&"A".repeat(16_449)), (1, 0));
    assert_eq!(
        refusal(&format!("Z +0000\n{}\n", "A".repeat(16_439))),
        (2, 2)
    );
    assert_eq!(
        refusal(&format!("Z +0000\n{}\n", "A".repeat(16_440))),
        (1, 0)
    );
}

/// 2: "line without LF, over 256 bytes, or a byte outside 20 to 7E".
#[test]
fn number_2() {
    assert_eq!(refusal("Z +0000"), (2, 1));
    assert_eq!(refusal("Z +0000\nC * * * * *"), (2, 2));
    assert_eq!(refusal("Z +0000\n "), (2, 2));
    for byte in [0x00, 0x09, 0x0D, 0x1F, 0x7F, 0x80, 0xC3, 0xFF] {
        let sheet = [b"Z +0000\nD 2026", [byte].as_slice(), b"101T0000\n"].concat();
        let compiled = answer(&sheet);
        assert_eq!((compiled.number, compiled.line), (2, 2), "byte {byte}");
    }
    assert_eq!(refusal("Z +0000\r\n"), (2, 1));
    assert_eq!(refusal("Z +0000\nD 20260101T0000~ \n"), (3, 2));
}

/// A line of this many bytes without LF: `C`, a list of zeros and four stars.
fn cron_line_of(length: usize) -> String {
    let zeros = length - "C 0".len() - " * * * *".len();
    let (first, pairs) = (zeros % 2, zeros / 2);
    format!("C {}0{} * * * *", "0".repeat(first), ",0".repeat(pairs))
}

#[test]
fn lines_of_256_and_257_bytes() {
    assert_eq!(cron_line_of(256).len(), 256);
    second_line(0, &[&cron_line_of(255), &cron_line_of(256)]);
    second_line(2, &[&cron_line_of(257), &cron_line_of(258)]);
    second_line(3, &[&"A".repeat(256)]);
}
