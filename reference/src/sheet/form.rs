//! The written form of a line, whatever its place and its numbers: refusal 3,
//! "line not of a listed form, unknown name or value word".

use super::line::{Element, Field, Frequency, WeekdayEntry};

/// A line of a listed form. Times and offsets are the written digits here, and minutes once they are in range.
pub enum Form<Time, Offset> {
    Zone(Offset),
    Transition(Time, Offset),
    Cron([Field; 5]),
    Rule(Time, Vec<Part<Time>>),
    Extra(Time),
    Excepted(Time),
}

pub enum Part<Time> {
    Freq(Frequency),
    Interval(i64),
    Count(i64),
    Until(Time),
    ByDay(Vec<WeekdayEntry>),
    ByMonthDay(Vec<i64>),
    BySetPos(Vec<i64>),
    ByMonth(Vec<i64>),
}

/// "A *time* is `YYYYMMDDTHHMM`"; T-02: or `YYYYMMDDTHHMMSS`.
pub struct TimeDigits {
    pub year: i64,
    pub month: i64,
    pub day: i64,
    pub hour: i64,
    pub minute: i64,
    pub second: i64,
}

/// "An *offset* is a sign and `HHMM`".
pub struct OffsetDigits {
    pub is_negative: bool,
    pub hours: i64,
    pub minutes: i64,
}

pub type Written = Form<TimeDigits, OffsetDigits>;

/// "Each line starts with a tag letter and one space." None if the line is not of a listed form.
pub fn read(line: &str) -> Option<Written> {
    let (tag, rest) = line.split_once(' ')?;
    match tag {
        "Z" => Some(Form::Zone(offset(rest)?)),
        "T" => {
            let (when, new_offset) = rest.split_once(' ')?;
            Some(Form::Transition(time(when)?, offset(new_offset)?))
        }
        "C" => Some(Form::Cron(fields(rest)?)),
        "R" => {
            let (start, parts) = rest.split_once(' ')?;
            let parts: Option<Vec<_>> = parts.split(';').map(part).collect();
            Some(Form::Rule(time(start)?, parts?))
        }
        "D" => Some(Form::Extra(time(rest)?)),
        "X" => Some(Form::Excepted(time(rest)?)),
        _ => None,
    }
}

/// Decimal digits, so many and no others.
fn digits(text: &str, length: usize) -> Option<i64> {
    let all_digits = text.bytes().all(|byte| byte.is_ascii_digit());
    if all_digits && text.len() == length {
        text.parse().ok()
    } else {
        None
    }
}

/// "**Numbers** have 1 to 4 decimal digits; leading zeros are allowed."
fn number(text: &str) -> Option<i64> {
    (1..=4).find_map(|length| digits(text, length))
}

/// "A sign before an ordinal, month day or position is `+` or `-` or absent."
fn signed_number(text: &str) -> Option<i64> {
    if let Some(rest) = text.strip_prefix('-') {
        return number(rest).map(|value| -value);
    }
    number(text.strip_prefix('+').unwrap_or(text))
}

/// "four or six digits may follow the `T`".
fn time(text: &str) -> Option<TimeDigits> {
    let (date, clock) = text.split_once('T')?;
    let second = match (date.len(), clock.len()) {
        (8, 4) => 0,
        (8, 6) => digits(&clock[4..], 2)?,
        _ => return None,
    };
    Some(TimeDigits {
        year: digits(&date[..4], 4)?,
        month: digits(&date[4..6], 2)?,
        day: digits(&date[6..], 2)?,
        hour: digits(&clock[..2], 2)?,
        minute: digits(&clock[2..4], 2)?,
        second,
    })
}

fn offset(text: &str) -> Option<OffsetDigits> {
    let is_negative = text.starts_with('-');
    let clock = text.strip_prefix(['+', '-'])?;
    if clock.len() != 4 {
        return None;
    }
    Some(OffsetDigits {
        is_negative,
        hours: digits(&clock[..2], 2)?,
        minutes: digits(&clock[2..], 2)?,
    })
}

/// "five cron fields, one space between".
fn fields(text: &str) -> Option<[Field; 5]> {
    let fields: Option<Vec<Field>> = text.split(' ').map(field).collect();
    fields?.try_into().ok()
}

/// "A field is `*` or an element list. An element list is an element, or an element, a comma and an element list."
fn field(text: &str) -> Option<Field> {
    if text == "*" {
        return Some(Field::Star);
    }
    let elements: Option<Vec<Element>> = text.split(',').map(element).collect();
    Some(Field::List(elements?))
}

/// "An element is a number or two numbers with `-`".
fn element(text: &str) -> Option<Element> {
    let (first, last) = text.split_once('-').unwrap_or((text, text));
    Some(Element {
        first: number(first)?,
        last: number(last)?,
    })
}

/// "Part names and values are upper case and compared byte for byte".
fn part(text: &str) -> Option<Part<TimeDigits>> {
    let (name, value) = text.split_once('=')?;
    match name {
        "FREQ" => Some(Part::Freq(frequency(value)?)),
        "INTERVAL" => Some(Part::Interval(number(value)?)),
        "COUNT" => Some(Part::Count(number(value)?)),
        "UNTIL" => Some(Part::Until(time(value)?)),
        "BYDAY" => Some(Part::ByDay(comma_list(value, weekday_entry)?)),
        "BYMONTHDAY" => Some(Part::ByMonthDay(comma_list(value, signed_number)?)),
        "BYSETPOS" => Some(Part::BySetPos(comma_list(value, signed_number)?)),
        "BYMONTH" => Some(Part::ByMonth(comma_list(value, number)?)),
        _ => None,
    }
}

fn frequency(word: &str) -> Option<Frequency> {
    match word {
        "DAILY" => Some(Frequency::Daily),
        "WEEKLY" => Some(Frequency::Weekly),
        "MONTHLY" => Some(Frequency::Monthly),
        "YEARLY" => Some(Frequency::Yearly),
        _ => None,
    }
}

fn comma_list<Entry>(text: &str, entry: fn(&str) -> Option<Entry>) -> Option<Vec<Entry>> {
    text.split(',').map(entry).collect()
}

/// "a comma list of `SU MO TU WE TH FR SA`, each with an optional signed ordinal".
fn weekday_entry(text: &str) -> Option<WeekdayEntry> {
    let word_at = text.len().checked_sub(2)?;
    let (ordinal, word) = (text.get(..word_at)?, text.get(word_at..)?);
    let words = ["SU", "MO", "TU", "WE", "TH", "FR", "SA"];
    let weekday = words.iter().position(|&name| name == word)? as i64;
    let ordinal = match ordinal {
        "" => None,
        written => Some(signed_number(written)?),
    };
    Some(WeekdayEntry { ordinal, weekday })
}
