//! Refusal 3: "line not of a listed form, unknown name or value word".

use super::{first_line, second_line};

const LINES: &[&str] = &[
    "",
    " ",
    "C",
    "C ",
    "D",
    "X ",
    "R",
    "Q 20260101T0000",
    "CC * * * * *",
    "d 20260101T0000",
    "#",
    "D20260101T0000",
    "D  20260101T0000",
    " D 20260101T0000",
    "D 20260101T0000 ",
    "D 20260101T0000 20260101T0000",
    "D 2026010T0000",
    "D 202601010T0000",
    "D 20260101T000",
    "D 20260101T00000",
    "D 20260101t0000",
    "D 20260101 0000",
    "D 2026-101T0000",
    "D 20260101T0000000",
    "D 20260101T00000000",
    "D 20260101T000000Z",
    "D 20260101T0000:00",
    "D 20260101T0000 00",
    "X 20260101T00000",
    "X 20260101T0000O0",
    "D +0260101T0000",
    "D 20260101T00:0",
];

const ZONES: &[&str] = &[
    "Z", "Z ", "Z 0100", "Z +100", "Z +01000", "Z +01:00", "Z  +0100", "Z +0100 ", "Z +-100",
    "z +0100", "Z *0100", "Z +01 0",
];

const TRANSITIONS: &[&str] = &[
    "T 20260329T0100",
    "T 20260329T0100 ",
    "T 20260329T0100  +0200",
    "T +0200 20260329T0100",
    "T 20260329T0100 0200",
    "T 20260329T0100 +0200 ",
    "T 20260329T0100+0200",
    "T 20260329T01000 +0200",
    "T 20260329T0100000 +0200",
    "T 20260329T010000+0200",
    "T 20260329T010001 0200",
];

#[test]
fn number_3_the_line() {
    second_line(3, LINES);
    first_line(3, ZONES);
    second_line(3, TRANSITIONS);
}

#[test]
fn number_3_cron() {
    second_line(
        3,
        &[
            "C * * * *",
            "C * * * * * *",
            "C *  * * * *",
            "C * * * * * ",
            "C */5 * * * *",
            "C 0-30/5 * * * *",
            "C ** * * * *",
            "C *,1 * * * *",
            "C 1,* * * * *",
            "C ,1 * * * *",
            "C 1, * * * *",
            "C 1,,2 * * * *",
            "C , * * * *",
            "C - * * * *",
            "C 1- * * * *",
            "C -1 * * * *",
            "C 1-2-3 * * * *",
            "C 1--2 * * * *",
            "C +1 * * * *",
            "C 00001 * * * *",
            "C 1-00002 * * * *",
            "C 0 0 * JAN *",
            "C 0 0 * * MON",
            "C 0 0 * * L",
            "C 0 0 ? * *",
            "C @daily",
            "C 1;2 * * * *",
        ],
    );
}

const PARTS: &[&str] = &[
    "",
    "FREQ",
    "FREQ=",
    "FREQ=HOURLY",
    "FREQ=YEAR",
    "FREQ=YEARLYX",
    "FREQ=yearly",
    "FREQ=daily",
    "freq=DAILY",
    "FREQ=DAILYX",
    "FREQ =DAILY",
    "FREQ= DAILY",
    "FREQ=DAILY ",
    " FREQ=DAILY",
    "FREQ=DAILY;",
    ";FREQ=DAILY",
    "FREQ=DAILY;;COUNT=1",
    "FREQ=DAILY;INTERVAL=",
    "FREQ=DAILY;INTERVAL=+1",
    "FREQ=DAILY;INTERVAL=-1",
    "FREQ=DAILY;INTERVAL=00001",
    "FREQ=DAILY;COUNT=10000",
    "FREQ=DAILY;COUNT=+1",
    "FREQ=DAILY;COUNT=1,2",
    "FREQ=DAILY;COUNT=A",
    "FREQ=DAILY;UNTIL=20260131",
    "FREQ=DAILY;UNTIL=20260131T06000",
    "FREQ=DAILY;UNTIL=20260131T0600000",
    "FREQ=DAILY;UNTIL=20260131T060000Z",
    "UNTIL=20260131T06000;FREQ=DAILY",
    "FREQ=DAILY;UNTIL=20260131T0600Z",
    "FREQ=DAILY;BYDAY=",
    "FREQ=DAILY;BYDAY=,SA",
    "FREQ=DAILY;BYDAY=SA,",
    "FREQ=DAILY;BYDAY=SA,,SU",
    "FREQ=DAILY;BYDAY=S",
    "FREQ=DAILY;BYDAY=sa",
    "FREQ=DAILY;BYDAY=SAT",
    "FREQ=DAILY;BYDAY=XX",
    "FREQ=MONTHLY;BYDAY=+SA",
    "FREQ=MONTHLY;BYDAY=-SA",
    "FREQ=MONTHLY;BYDAY=1",
    "FREQ=MONTHLY;BYDAY=+-1SA",
    "FREQ=MONTHLY;BYDAY=00001SA",
    "FREQ=MONTHLY;BYDAY=1 SA",
    "FREQ=MONTHLY;BYDAY=*",
    "FREQ=MONTHLY;BYMONTHDAY=",
    "FREQ=MONTHLY;BYMONTHDAY=-",
    "FREQ=MONTHLY;BYMONTHDAY=1,",
    "FREQ=MONTHLY;BYMONTHDAY=00031",
    "FREQ=MONTHLY;BYMONTHDAY=+-1",
    "FREQ=MONTHLY;BYMONTHDAY=1-5",
    "FREQ=MONTHLY;BYDAY=SA;BYSETPOS=",
    "FREQ=MONTHLY;BYDAY=SA;BYSETPOS=+",
    "FREQ=DAILY;WKST=MO",
    "FREQ=DAILY;BYMONTH=",
    "FREQ=DAILY;BYMONTH=+1",
    "FREQ=DAILY;BYMONTH=-1",
    "FREQ=DAILY;BYMONTH=00001",
    "FREQ=DAILY;BYMONTH=1,",
    "FREQ=DAILY;BYMONTH=,1",
    "FREQ=DAILY;BYMONTH=1,,2",
    "FREQ=DAILY;BYMONTH=1-2",
    "FREQ=DAILY;BYMONTH=*",
    "FREQ=DAILY;BYMONTH=JAN",
    "FREQ=DAILY;BYMONTH=1 ",
    "FREQ=DAILY;BYMONTHS=1",
    "FREQ=DAILY;BYMONT=1",
    "FREQ=DAILY;bymonth=1",
    "FREQ=DAILY;BYHOUR=1",
    "FREQ=YEARLY;BYYEARDAY=31",
    "FREQ=YEARLY;BYWEEKNO=5",
    "FREQ=DAILY;=1",
    "FREQ=DAILY;X",
    "FREQ=DAILY,COUNT=1",
    "FREQ==DAILY",
    "FREQ=DAILY COUNT=1",
];

#[test]
fn number_3_rules() {
    for part in PARTS {
        second_line(3, &[&format!("R 20260131T0600 {part}")]);
    }
    second_line(
        3,
        &[
            "R 20260131T0600",
            "R FREQ=DAILY",
            "R FREQ=DAILY 20260131T0600",
            "R 20260131T0600  FREQ=DAILY",
            "R 20260131T06000 FREQ=DAILY",
            "R 20260131T0600000 FREQ=DAILY",
        ],
    );
}
