//! Rules of years, and rules of every frequency in some months: written down, and by a pattern.

use crate::local::{written, MINUTES_OF_A_DAY};
use crate::sheet::line::Line;
use crate::sheet::read_line;

/// Days that are tried for a start: two years and more.
const TRIED: i64 = 800;

/// Six o'clock on 2000-01-01.
const SIX: i64 = 360;

/// Parts that hold a day of the year 2000, which is a leap year and begins with a Saturday.
const PARTS: [&str; 48] = [
    // 29 February, the last day of February and those about it
    "FREQ=YEARLY;BYMONTH=2;BYMONTHDAY=29",
    "FREQ=YEARLY;BYMONTHDAY=29;BYSETPOS=2,12",
    "FREQ=YEARLY;BYMONTH=2;BYMONTHDAY=-1",
    "FREQ=YEARLY;BYMONTH=2;BYMONTHDAY=-29",
    "FREQ=YEARLY;BYMONTH=2,3;BYMONTHDAY=1,28,29,30",
    "FREQ=YEARLY;BYMONTH=2;BYDAY=TU;BYMONTHDAY=29",
    "FREQ=YEARLY;BYMONTH=2;BYDAY=5TU,-5TH",
    "FREQ=YEARLY;BYMONTH=2;BYDAY=SU,MO,TU,WE,TH,FR,SA;BYSETPOS=29,-29",
    "FREQ=MONTHLY;BYMONTH=2;BYMONTHDAY=29",
    "FREQ=MONTHLY;BYMONTH=2;BYDAY=-1TU,5WE",
    "FREQ=DAILY;BYMONTH=2;BYMONTHDAY=29,-29",
    "FREQ=DAILY;BYMONTH=2;INTERVAL=59",
    // weekdays and month days in all months
    "FREQ=YEARLY;BYDAY=SA",
    "FREQ=YEARLY;BYDAY=FR;BYMONTHDAY=13",
    "FREQ=YEARLY;INTERVAL=3;BYMONTHDAY=31,-31",
    "FREQ=YEARLY;BYMONTH=1,2,3,4,5,6,7,8,9,10,11,12;BYMONTHDAY=1",
    // ordinals
    "FREQ=YEARLY;BYMONTH=3,10;BYDAY=-1SU",
    "FREQ=YEARLY;BYMONTH=12,1;BYDAY=1MO,5FR,-5SU",
    "FREQ=YEARLY;BYMONTH=5;BYDAY=MO,2TU,-2WE",
    "FREQ=YEARLY;BYMONTH=6,9;BYDAY=3SA,-3SA,4SU;BYMONTHDAY=15,16,17,18,19,20,21",
    "FREQ=YEARLY;INTERVAL=4;BYMONTH=11;BYDAY=TU;BYMONTHDAY=2,3,4,5,6,7,8",
    // positions in the year
    "FREQ=YEARLY;BYDAY=MO,TU,WE,TH,FR;BYSETPOS=1,-1",
    "FREQ=YEARLY;BYDAY=SU,MO,TU,WE,TH,FR,SA;BYSETPOS=31,-31",
    "FREQ=YEARLY;BYDAY=SU,SA;BYSETPOS=9,10,-9,-10",
    "FREQ=YEARLY;BYMONTHDAY=1;BYSETPOS=12,13,-12,-13",
    "FREQ=YEARLY;BYMONTHDAY=31;BYSETPOS=7,8",
    "FREQ=YEARLY;BYMONTHDAY=30,31;BYSETPOS=-18",
    "FREQ=YEARLY;BYMONTHDAY=-1,1;BYSETPOS=2,3,-2,-3",
    "FREQ=YEARLY;BYDAY=FR;BYMONTHDAY=13;BYSETPOS=1,3,-3",
    "FREQ=YEARLY;BYMONTH=6,7,8;BYDAY=SA;BYSETPOS=5,6,-1",
    "FREQ=YEARLY;BYMONTH=1,12;BYDAY=1SU,-1SU;BYSETPOS=2,3",
    "FREQ=YEARLY;BYMONTH=4,11;BYMONTHDAY=29,30,31;BYSETPOS=2,3,-4",
    "FREQ=YEARLY;INTERVAL=2;BYMONTH=12;BYDAY=SU,SA;BYSETPOS=-2",
    "FREQ=YEARLY;INTERVAL=7;BYDAY=TH,WE;BYSETPOS=31,-31",
    // BYMONTH as a limit
    "FREQ=DAILY;BYMONTH=1",
    "FREQ=DAILY;BYMONTH=12,1;INTERVAL=5",
    "FREQ=DAILY;BYMONTH=2,4,6;BYDAY=MO,SU",
    "FREQ=DAILY;BYMONTH=7;BYMONTHDAY=31,-31",
    "FREQ=WEEKLY;BYMONTH=12;BYDAY=FR,SA,SU,MO",
    "FREQ=WEEKLY;BYMONTH=3,4;INTERVAL=2;BYDAY=MO,SU",
    "FREQ=WEEKLY;BYMONTH=10",
    "FREQ=WEEKLY;BYMONTH=1,3,5,7,9,11;INTERVAL=999",
    "FREQ=MONTHLY;BYMONTH=12",
    "FREQ=MONTHLY;BYMONTH=4,6,9,11;BYMONTHDAY=30,31",
    "FREQ=MONTHLY;BYMONTH=1,2,3;INTERVAL=5;BYDAY=MO",
    "FREQ=MONTHLY;BYMONTH=8,9;BYDAY=MO,TU,WE,TH,FR;BYSETPOS=-1,1",
    "FREQ=MONTHLY;BYMONTH=5;BYDAY=1SA,-1SA;BYSETPOS=2",
    "FREQ=MONTHLY;BYMONTH=11;INTERVAL=11;BYDAY=TH,4TH",
];

/// At the ends of the window and of the years, and where the default day or month comes from the start.
const LINES: [&str; 20] = [
    "R 20000101T0000 FREQ=YEARLY",
    "R 20000101T0000 FREQ=YEARLY;BYMONTH=1,12",
    "R 20000131T2359 FREQ=YEARLY;BYMONTH=1,2,3,4",
    "R 20000229T0600 FREQ=YEARLY;BYMONTH=2,3",
    "R 20000229T0600 FREQ=MONTHLY;BYMONTH=2",
    "R 20000229T0600 FREQ=WEEKLY;BYMONTH=2",
    "R 20000101T0000 FREQ=YEARLY;BYDAY=SA;BYSETPOS=1",
    "R 20000101T0000 FREQ=WEEKLY;BYDAY=SA,SU,MO,TU,WE,TH,FR;BYMONTH=1",
    "R 20000101T2359 FREQ=WEEKLY;INTERVAL=2;BYDAY=SA,SU,MO;BYMONTH=12,1",
    "R 20001231T2359 FREQ=YEARLY",
    "R 20001231T2359 FREQ=WEEKLY;INTERVAL=3;BYDAY=SU,MO;BYMONTH=12",
    "R 20960229T0600 FREQ=YEARLY",
    "R 20961231T0600 FREQ=YEARLY;INTERVAL=3;BYMONTHDAY=-1;BYSETPOS=-1",
    "R 20990101T0000 FREQ=YEARLY;BYDAY=TH;BYSETPOS=1,-1",
    "R 20991231T2359 FREQ=YEARLY",
    "R 20991231T2359 FREQ=YEARLY;INTERVAL=999",
    "R 20991231T2359 FREQ=YEARLY;BYMONTH=12;BYDAY=-1TH",
    "R 20991231T2359 FREQ=YEARLY;BYDAY=TH;BYSETPOS=-1,-31",
    "R 20991231T0000 FREQ=DAILY;BYMONTH=12;INTERVAL=31",
    "R 20991227T0000 FREQ=WEEKLY;BYMONTH=12;BYDAY=SU,TH",
];

/// Every so many years, on a day that all years have and on one that few have.
const INTERVALS: [i64; 18] = [
    1, 2, 3, 4, 5, 7, 8, 12, 16, 25, 28, 40, 50, 96, 97, 99, 100, 999,
];

/// All of these lines.
pub fn lines_of_years() -> Vec<String> {
    let mut all: Vec<String> = LINES.iter().map(|line| line.to_string()).collect();
    all.extend(PARTS.iter().map(|parts| started_at_six(parts)));
    for interval in INTERVALS {
        for start in ["20000229T0600", "20000301T0600"] {
            all.push(format!("R {start} FREQ=YEARLY;INTERVAL={interval}"));
        }
    }
    all
}

fn started_at_six(parts: &str) -> String {
    started(SIX, parts).expect("these parts hold a day of the year 2000")
}

/// An R line with these parts from the first day on that they hold, at this minute or whole days after it; none if that is
/// too far away.
pub fn started(minute: i64, parts: &str) -> Option<String> {
    let minutes = (0..TRIED).map(|day| minute + day * MINUTES_OF_A_DAY);
    let mut lines = minutes.map(|start| format!("R {} {parts}", written(start)));
    lines.find(|line| read_line(&[Line::Zone(0)], line.as_bytes()).is_ok())
}
