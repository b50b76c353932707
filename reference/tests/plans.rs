//! The load check: "A plan is taken exactly if", with the line number of refusal 10.

use reference::answer::answer;
use reference::entries::{compile, Loaded};
use reference::hex::word_of;

const ZONE: &str = "01003C";
const CRON: &str = "03000000004000000000000004FFFFFFFE1FFE7F00";

/// 0, or the line of refusal 10.
fn line_refused(plan: &str) -> u64 {
    let checked = Loaded::new(plan.as_bytes()).check();
    assert_eq!(checked.number, if checked.line == 0 { 0 } else { 10 });
    assert_eq!(checked.instant, 0);
    checked.line
}

/// The plan of these frames with its right end frame.
fn plan(frames: &[&str]) -> String {
    let lines: String = frames.iter().map(|frame| format!("{frame}\n")).collect();
    format!("{lines}FF{:02X}\n", frames.len())
}

/// Whether the frame is taken as the second line.
fn taken(frame: &str) -> bool {
    match line_refused(&plan(&[ZONE, frame])) {
        0 => true,
        2 => false,
        line => panic!("{frame} was refused at line {line}"),
    }
}

/// The frame of a rule that starts on 2026-01-31 (a Saturday, the fifth) 06:00.
fn compiled_frame(parts: &str) -> String {
    let sheet = format!("Z +0100\nR 20260131T0600 {parts}\n");
    let text = compile(sheet.as_bytes(), usize::MAX).1;
    text.lines().nth(1).map(str::to_string).unwrap_or_default()
}

/// The frame with these digits from a byte on.
fn with(frame: &str, byte: usize, digits: &str) -> String {
    let at = 2 * byte;
    format!("{}{digits}{}", &frame[..at], &frame[at + digits.len()..])
}

#[test]
fn a_plan_that_ends_too_early() {
    assert_eq!(line_refused(""), 1);
    assert_eq!(line_refused("01003C\n"), 2);
    assert_eq!(line_refused(&format!("01003C\n{CRON}\n")), 3);
}

#[test]
fn the_text_of_a_line() {
    assert_eq!(line_refused("01003C\nFF01\n"), 0);
    for bad in [
        "01003c",
        "01003",
        "0100 3C",
        "01003C ",
        " 01003C",
        "",
        "01003C\r",
        "0x003C",
        "01003G",
        "+1003C",
        "0100:C",
        "0100@C",
        "0100/C",
        "01003C00",
        "0100",
        "01",
        "00",
        "0100\u{e9}",
    ] {
        assert_eq!(line_refused(&format!("{bad}\nFF01\n")), 1, "{bad}");
    }
    assert_eq!(line_refused("01003C\nFF01"), 2);
    assert_eq!(line_refused("01003C"), 1);
    assert_eq!(line_refused("\n"), 1);
}

#[test]
fn the_end_frame() {
    assert_eq!(line_refused("FF00\n"), 1);
    for bad in ["FF00", "FF02", "FF", "FF0100", "ff01"] {
        assert_eq!(line_refused(&format!("01003C\n{bad}\n")), 2, "{bad}");
    }
    for tail in ["\n", " ", "FF01\n", "x", "01003C\n"] {
        assert_eq!(line_refused(&format!("01003C\nFF01\n{tail}")), 3, "{tail}");
    }
}

#[test]
fn frames_64_and_65() {
    let mut frames = vec![ZONE];
    frames.resize(64, "0500000000");
    assert_eq!(line_refused(&plan(&frames)), 0);
    frames.push("0500000000");
    assert_eq!(line_refused(&plan(&frames)), 65);
}

#[test]
fn kinds_and_lengths() {
    for bad in [
        "00",
        "07",
        "0700000000",
        "FE01",
        "05000000",
        "050000000000",
        "06",
        "0200D2963C00",
        "03",
        "04",
    ] {
        assert!(!taken(bad), "{bad}");
    }
    assert!(!taken(&CRON[..40]) && !taken(&format!("{CRON}00")));
    let rule = compiled_frame("FREQ=DAILY");
    assert_eq!(rule.len(), 82);
    assert!(taken(&rule) && !taken(&rule[..80]) && !taken(&format!("{rule}00")));
}

/// "old frames are refused with 10": those of 39 bytes, at their line.
#[test]
fn frames_without_a_month_mask() {
    for parts in ["FREQ=DAILY", "FREQ=WEEKLY", "FREQ=MONTHLY", "FREQ=YEARLY"] {
        let rule = compiled_frame(parts);
        assert!(taken(&rule) && !taken(&rule[..78]), "{parts}");
        let third = line_refused(&plan(&[ZONE, CRON, &rule[..78], &rule]));
        assert_eq!(third, 3, "{parts}");
    }
}

#[test]
fn the_zone_frames() {
    assert_eq!(line_refused(&plan(&[CRON, ZONE])), 1);
    assert_eq!(line_refused(&plan(&[ZONE, ZONE])), 2);
    assert_eq!(line_refused(&plan(&[ZONE, CRON, "02000000000000"])), 3);
    for (offset, line) in [
        ("0348", 0),
        ("0349", 1),
        ("FD30", 0),
        ("FD2F", 1),
        ("0000", 0),
        ("8000", 1),
    ] {
        assert_eq!(
            line_refused(&plan(&[&format!("01{offset}")])),
            line,
            "{offset}"
        );
    }
    assert!(taken("02000000000078") && taken("0203228D1F0078"));
    assert!(!taken("0203228D200078") && !taken("02FFFFFFFF0078") && !taken("02800000000078"));
}

#[test]
fn the_transition_limits() {
    assert!(taken("020000000000F0") && !taken("020000000000F1"));
    assert!(taken("0200000000FF88") && !taken("0200000000FF87"));
    assert!(!taken("0200000000003C"));
    let second = |frame| line_refused(&plan(&[ZONE, "02000000000078", frame]));
    assert_eq!(second("0200000B40003C"), 0);
    assert_eq!(second("0200000B3F003C"), 3);
    assert_eq!(second("0200000B400078"), 3);
    assert_eq!(second("0200000B400349"), 3);
}

#[test]
fn transitions_32_and_33() {
    let frame = |number: i64| format!("02{:08X}{:04X}", number * 2_880, 60 + number % 2 * 60);
    let frames: Vec<String> = (1..=33).map(frame).collect();
    let mut lines = vec![ZONE];
    lines.extend(frames.iter().take(32).map(String::as_str));
    assert_eq!(line_refused(&plan(&lines)), 0);
    lines.push(&frames[32]);
    assert_eq!(line_refused(&plan(&lines)), 34);
}

#[test]
fn extra_and_excepted_minutes() {
    for kind in ["05", "06"] {
        assert!(taken(&format!("{kind}00000000")) && taken(&format!("{kind}03228D1F")));
        assert!(!taken(&format!("{kind}03228D20")) && !taken(&format!("{kind}FFFFFFFF")));
        assert!(!taken(&format!("{kind}80000000")));
    }
}

#[test]
fn cron_masks() {
    assert!(taken(CRON));
    assert!(
        taken(&with(CRON, 1, "0FFFFFFFFFFFFFFF")) && !taken(&with(CRON, 1, "1000000000000000"))
    );
    assert!(taken(&with(CRON, 9, "00FFFFFF")) && !taken(&with(CRON, 9, "01000000")));
    for (byte, zero) in [
        (1, "0000000000000000"),
        (9, "00000000"),
        (13, "00000000"),
        (17, "0000"),
        (19, "00"),
    ] {
        assert!(!taken(&with(&with(CRON, 20, "07"), byte, zero)));
    }
    let restricted = with(CRON, 20, "04");
    assert!(!taken(&with(&restricted, 17, "1FFF")) && !taken(&with(&restricted, 17, "3FFE")));
    assert!(taken(&with(&restricted, 17, "0002")) && taken(&with(&restricted, 17, "1000")));
}

/// "a flag not set only with a full mask, other flag bits 0".
#[test]
fn cron_flags() {
    for flags in ["00", "01", "02", "03", "04", "05", "06", "07"] {
        assert!(taken(&with(CRON, 20, flags)));
    }
    assert!(!taken(&with(CRON, 20, "08")) && !taken(&with(CRON, 20, "80")));
    let one_day = with(CRON, 13, "00000002");
    assert!(!taken(&one_day) && !taken(&with(&one_day, 20, "02")));
    assert!(taken(&with(&one_day, 20, "01")) && taken(&with(&one_day, 20, "03")));
    let sunday = with(CRON, 19, "01");
    assert!(!taken(&sunday) && !taken(&with(&sunday, 20, "01")));
    assert!(taken(&with(&sunday, 20, "02")) && taken(&with(&sunday, 20, "03")));
    let june = with(CRON, 17, "0040");
    for without in ["00", "01", "02", "03"] {
        assert!(!taken(&with(&june, 20, without))); // as such a plan was before T-04
    }
    for flags in ["04", "05", "06", "07"] {
        assert!(taken(&with(&june, 20, flags)));
    }
    assert!(!taken(&with(&june, 20, "0C")));
    assert!(!taken(&with(&with(CRON, 19, "FF"), 20, "02")));
    assert!(!taken(&with(&with(CRON, 13, "FFFFFFFF"), 20, "01")));
}

#[test]
fn rule_numbers() {
    let daily = compiled_frame("FREQ=DAILY");
    assert!(taken(&daily));
    assert!(!taken(&with(&daily, 1, "00")) && !taken(&with(&daily, 1, "05")));
    assert!(!taken(&with(&daily, 2, "0000")) && taken(&with(&daily, 2, "03E7")));
    assert!(!taken(&with(&daily, 2, "03E8")) && !taken(&with(&daily, 2, "FFFF")));
    let start = &daily[8..16];
    assert!(taken(&with(&daily, 8, start)));
    let before = format!(
        "{:08X}",
        i64::from_str_radix(start, 16).map_or(0, |number| number - 1)
    );
    assert!(!taken(&with(&daily, 8, &before)));
    assert!(!taken(&with(&daily, 8, "03228D20")) && !taken(&with(&daily, 4, "03228D20")));
    assert!(taken(&with(&daily, 4, "03228D1F")) && !taken(&with(&daily, 4, "FFFFFFFF")));
}

/// "daily: ordinals and positions zero"; BYDAY and BYMONTHDAY may limit it. The start is a 31st, a Saturday.
#[test]
fn daily_masks() {
    let daily = compiled_frame("FREQ=DAILY");
    assert!(taken(&with(&daily, 12, "40")) && !taken(&with(&daily, 12, "3F")));
    assert!(!taken(&with(&daily, 12, "C0")));
    assert!(taken(&with(&daily, 13, "80000000")) && !taken(&with(&daily, 13, "80000001")));
    assert!(taken(&with(&daily, 17, "00000002")) && !taken(&with(&daily, 17, "00000004")));
    assert!(!taken(&with(&daily, 17, "00000001")) && !taken(&with(&daily, 13, "00000001")));
    for byte in 21..39 {
        assert!(!taken(&with(&daily, byte, "40")), "byte {byte}");
    }
}

/// "weekly: weekday mask set, all else after it zero"; the month mask is free.
#[test]
fn weekly_masks() {
    let weekly = compiled_frame("FREQ=WEEKLY");
    assert_eq!(&weekly[24..26], "40");
    assert!(taken(&weekly) && taken(&with(&weekly, 12, "7F")));
    assert!(!taken(&with(&weekly, 12, "00")) && !taken(&with(&weekly, 12, "01")));
    for byte in 13..39 {
        assert!(!taken(&with(&weekly, byte, "80")), "byte {byte}");
        assert!(!taken(&with(&weekly, byte, "40")), "byte {byte}");
    }
}

/// "monthly: at least one month day or weekday set"; an ordinal is a weekday set.
#[test]
fn monthly_masks() {
    let monthly = compiled_frame("FREQ=MONTHLY");
    assert_eq!(&monthly[26..34], "80000000");
    assert!(taken(&monthly));
    let neither = with(&monthly, 13, "00000000");
    assert!(!taken(&neither) && !taken(&with(&neither, 31, "00000002")));
    assert!(taken(&with(&neither, 12, "40")) && !taken(&with(&neither, 12, "20")));
    assert!(taken(&with(&neither, 17, "00000002")));
    // the start is the fifth Saturday and the last: ordinals 1 to 5 and -1 to -5
    let is_start = [
        false, false, false, false, true, true, false, false, false, false,
    ];
    assert_eq!(is_start.len(), (21..31).len());
    for (byte, is_start) in (21..31).zip(is_start) {
        assert_eq!(taken(&with(&neither, byte, "40")), is_start, "byte {byte}");
        assert!(!taken(&with(&neither, byte, "C0")), "byte {byte}");
    }
    assert!(taken(&with(&with(&neither, 21, "40"), 12, "40")));
}

#[test]
fn monthly_positions() {
    let saturdays = compiled_frame("FREQ=MONTHLY;BYDAY=SA");
    assert!(taken(&with(&saturdays, 31, "00000020")) && !taken(&with(&saturdays, 31, "00000010")));
    assert!(taken(&with(&saturdays, 35, "00000002")) && !taken(&with(&saturdays, 35, "00000004")));
    assert!(taken(&with(&saturdays, 31, "FFFFFFFE")) && !taken(&with(&saturdays, 31, "FFFFFFFF")));
    assert!(taken(&with(&saturdays, 35, "FFFFFFFE")) && !taken(&with(&saturdays, 35, "FFFFFFFF")));
    assert!(!taken(&with(&saturdays, 31, "80000000")));
}

/// "A yearly frame is taken only with a month day or weekday set, and with a month set where an ordinal is."
#[test]
fn yearly_masks() {
    let yearly = compiled_frame("FREQ=YEARLY");
    assert_eq!((&yearly[26..34], &yearly[78..]), ("80000000", "0002"));
    assert!(taken(&yearly) && taken(&with(&yearly, 39, "0000")));
    let neither = with(&yearly, 13, "00000000");
    for months in ["0000", "0002", "1FFE"] {
        let neither = with(&neither, 39, months);
        assert!(!taken(&neither) && !taken(&with(&neither, 31, "00000002")));
        assert!(taken(&with(&neither, 12, "40")) && !taken(&with(&neither, 12, "20")));
        assert!(taken(&with(&neither, 17, "00000002")));
        let has_month = months != "0000";
        // the start is the fifth Saturday of January and the last
        assert_eq!(taken(&with(&neither, 25, "40")), has_month, "{months}");
        assert_eq!(taken(&with(&neither, 26, "40")), has_month, "{months}");
        for byte in 21..31 {
            let with_weekday = with(&with(&neither, byte, "40"), 12, "40");
            assert_eq!(taken(&with_weekday), has_month, "byte {byte}");
            assert!(!taken(&with(&with_weekday, byte, "C0")), "byte {byte}");
        }
        for byte in [21, 22, 23, 24, 27, 28, 29, 30] {
            assert!(!taken(&with(&neither, byte, "40")), "byte {byte}");
        }
    }
}

/// The start is the fifth Saturday of its year and the 48th from the end.
#[test]
fn yearly_positions() {
    let saturdays = compiled_frame("FREQ=YEARLY;BYDAY=SA");
    assert_eq!(&saturdays[78..], "0000");
    assert!(taken(&with(&saturdays, 31, "00000020")) && !taken(&with(&saturdays, 31, "FFFFFFDE")));
    assert!(!taken(&with(&saturdays, 35, "FFFFFFFE")) && !taken(&with(&saturdays, 35, "00000002")));
    assert!(taken(&with(&saturdays, 31, "FFFFFFFE")) && !taken(&with(&saturdays, 31, "FFFFFFFF")));
    let in_january = with(&saturdays, 39, "0002");
    assert!(
        taken(&with(&in_january, 35, "00000002")) && !taken(&with(&in_january, 35, "00000004"))
    );
    let with_december = with(&saturdays, 39, "1002");
    assert!(taken(&with(&with_december, 35, "00000020")));
    assert!(!taken(&with(&with_december, 35, "00000002")));
}

/// "zero for no limit, free in every frequency, bits 1 to 12 only"; the start is in January.
#[test]
fn month_masks() {
    for parts in [
        "FREQ=DAILY",
        "FREQ=WEEKLY",
        "FREQ=MONTHLY",
        "FREQ=YEARLY",
        "FREQ=YEARLY;BYDAY=SA",
    ] {
        let frame = compiled_frame(parts);
        for months in ["0000", "0002", "1FFE", "1002", "0006"] {
            assert!(taken(&with(&frame, 39, months)), "{parts} {months}");
        }
        for months in [
            "0001", "0003", "2002", "4002", "8002", "FFFF", "0004", "1FFC",
        ] {
            assert!(!taken(&with(&frame, 39, months)), "{parts} {months}");
        }
    }
}

/// "The defaults of YEARLY are filled in": the start's day and month, and neither where BYDAY or BYMONTHDAY is given.
#[test]
fn the_month_field() {
    let field = |parts: &str| compiled_frame(parts)[78..].to_string();
    for (parts, months) in [
        ("FREQ=YEARLY", "0002"),
        ("FREQ=YEARLY;BYMONTH=1,12", "1002"),
        ("FREQ=YEARLY;BYMONTH=12,0001,01", "1002"),
        ("FREQ=YEARLY;BYDAY=SA", "0000"),
        ("FREQ=YEARLY;BYMONTHDAY=31", "0000"),
        ("FREQ=YEARLY;BYDAY=SA;BYMONTHDAY=31;BYSETPOS=1", "0000"),
        ("FREQ=YEARLY;BYDAY=5SA;BYMONTH=1,2", "0006"),
        ("FREQ=MONTHLY", "0000"),
        ("FREQ=MONTHLY;BYMONTH=1", "0002"),
        ("FREQ=WEEKLY;BYMONTH=1,2,3,4,5,6,7,8,9,10,11,12", "1FFE"),
        ("FREQ=DAILY;BYMONTH=1", "0002"),
    ] {
        assert_eq!(field(parts), months, "{parts}");
    }
    let with_months = compiled_frame("FREQ=YEARLY;BYMONTH=1,12");
    assert_eq!(&with_months[24..34], "0080000000");
}

/// The start's occurrence is judged without *last*; an UNTIL is *last* itself, occurrence or not.
#[test]
fn the_last_field() {
    let field = |parts: &str| u64::from_str_radix(&compiled_frame(parts)[16..24], 16).ok();
    assert_eq!(field("FREQ=DAILY"), Some(52_595_999));
    assert_eq!(field("FREQ=DAILY;UNTIL=20260131T0600"), Some(13_719_240));
    assert_eq!(field("FREQ=DAILY;UNTIL=20260201T0559"), Some(13_720_679));
    assert_eq!(field("FREQ=DAILY;COUNT=1"), Some(13_719_240));
    assert_eq!(field("FREQ=MONTHLY;COUNT=3"), Some(13_892_040));
    assert_eq!(field("FREQ=MONTHLY;COUNT=9999"), Some(52_595_999));
    assert_eq!(field("FREQ=YEARLY;COUNT=3"), Some(14_770_440));
    assert_eq!(field("FREQ=YEARLY;COUNT=75"), Some(52_595_999));
}

/// At least one answer is asked for, as the driver wants it.
#[test]
fn requests_of_another_form() {
    let plan = word_of(plan(&[ZONE]).as_bytes());
    for name in ["next", "previous"] {
        let good = format!("{name} {plan} 0 1");
        assert_eq!(answer(&good).as_deref(), Some("11 0 0"));
        for rest in ["0 0", "0 -1", "0", "0 1 1"] {
            assert_eq!(answer(&format!("{name} {plan} {rest}")), None, "{rest}");
        }
    }
}
