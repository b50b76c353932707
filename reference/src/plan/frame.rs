//! A frame of the plan: "the frames are of these kinds and lengths".

use crate::zone::Transition;

#[derive(Clone, Debug, PartialEq, Eq)]
pub enum Frame {
    Zone { offset: i64 },
    Transition(Transition),
    Cron(CronFrame),
    Rule(RuleFrame),
    Extra { minute: i64 },
    Excepted { minute: i64 },
    End { frames: u64 },
}

#[derive(Clone, Debug, PartialEq, Eq)]
pub struct CronFrame {
    pub minutes: u64,
    pub hours: u64,
    pub days: u64,
    pub months: u64,
    pub weekdays: u64,
    pub flags: u64,
}

#[derive(Clone, Debug, PartialEq, Eq)]
pub struct RuleFrame {
    pub frequency: u64,
    pub interval: i64,
    pub start: i64,
    pub last: i64,
    pub plain_weekdays: u64,
    pub month_days: u64,
    pub month_days_from_end: u64,
    pub ordinals: [u64; 5],
    pub ordinals_from_end: [u64; 5],
    pub positions: u64,
    pub positions_from_end: u64,
    pub months: u64,
}

/// The frame of a line's bytes; none if its kind or length is none of the listed.
pub fn read(bytes: &[u8]) -> Option<Frame> {
    let (kind, rest) = bytes.split_first()?;
    match (kind, rest.len()) {
        (0x01, 2) => Some(Frame::Zone {
            offset: signed(rest),
        }),
        (0x02, 6) => Some(Frame::Transition(Transition {
            instant: signed(&rest[..4]),
            offset: signed(&rest[4..]),
        })),
        (0x03, 20) => Some(Frame::Cron(cron(rest))),
        (0x04, 40) => Some(Frame::Rule(rule(rest))),
        (0x05, 4) => Some(Frame::Extra {
            minute: signed(rest),
        }),
        (0x06, 4) => Some(Frame::Excepted {
            minute: signed(rest),
        }),
        (0xFF, 1) => Some(Frame::End {
            frames: unsigned(rest),
        }),
        _ => None,
    }
}

/// "Big-endian".
fn unsigned(bytes: &[u8]) -> u64 {
    bytes
        .iter()
        .fold(0, |number, &byte| number << 8 | u64::from(byte))
}

/// "in two's complement". A local minute with its highest bit set is out of range either way.
fn signed(bytes: &[u8]) -> i64 {
    let number = unsigned(bytes) as i64;
    let modulus = 1_i64 << (8 * bytes.len());
    if number < modulus / 2 {
        number
    } else {
        number - modulus
    }
}

/// "minute mask 8, hour mask 4, day mask 4, month mask 2, weekday mask 1, flags 1".
fn cron(bytes: &[u8]) -> CronFrame {
    CronFrame {
        minutes: unsigned(&bytes[..8]),
        hours: unsigned(&bytes[8..12]),
        days: unsigned(&bytes[12..16]),
        months: unsigned(&bytes[16..18]),
        weekdays: unsigned(&bytes[18..19]),
        flags: unsigned(&bytes[19..]),
    }
}

/// "frequency 1 [..], interval 2, start 4, last 4, plain weekday mask 1, month days 4, month days from the end
/// 4, ordinals 1..5 one weekday mask each, ordinals -1..-5 likewise, positions 4, positions from the end 4"; "a
/// month mask of 2 bytes at its end".
fn rule(bytes: &[u8]) -> RuleFrame {
    RuleFrame {
        frequency: unsigned(&bytes[..1]),
        interval: unsigned(&bytes[1..3]) as i64,
        start: signed(&bytes[3..7]),
        last: signed(&bytes[7..11]),
        plain_weekdays: unsigned(&bytes[11..12]),
        month_days: unsigned(&bytes[12..16]),
        month_days_from_end: unsigned(&bytes[16..20]),
        ordinals: [20, 21, 22, 23, 24].map(|place| u64::from(bytes[place])),
        ordinals_from_end: [25, 26, 27, 28, 29].map(|place| u64::from(bytes[place])),
        positions: unsigned(&bytes[30..34]),
        positions_from_end: unsigned(&bytes[34..38]),
        months: unsigned(&bytes[38..]),
    }
}
