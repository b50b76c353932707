//! A taken line of the sheet, as its text says it.

use crate::zone::Transition;

pub enum Line {
    Zone(i64),
    Transition(Transition),
    Cron(Cron),
    Rule(Rule),
    Extra(i64),
    Excepted(i64),
}

/// "Fields: minute [..], hour [..], day of month [..], month [..], day of week".
pub struct Cron {
    pub minute: Field,
    pub hour: Field,
    pub day_of_month: Field,
    pub month: Field,
    pub day_of_week: Field,
}

/// "A field is `*` or an element list."
pub enum Field {
    Star,
    List(Vec<Element>),
}

/// "An element is a number or two numbers with `-`"; a lone number is both.
pub struct Element {
    pub first: i64,
    pub last: i64,
}

impl Field {
    /// "A field is *restricted* if it is not `*`; `1-31` is restricted."
    pub fn is_restricted(&self) -> bool {
        matches!(self, Field::List(_))
    }

    /// "both ends counted".
    pub fn matches(&self, number: i64) -> bool {
        match self {
            Field::Star => true,
            Field::List(elements) => elements
                .iter()
                .any(|element| element.first <= number && number <= element.last),
        }
    }
}

pub struct Rule {
    pub start: i64,
    pub frequency: Frequency,
    pub interval: i64,
    pub count: Option<i64>,
    pub until: Option<i64>,
    pub by_day: Option<Vec<WeekdayEntry>>,
    pub by_month_day: Option<Vec<i64>>,
    pub by_set_pos: Option<Vec<i64>>,
    pub by_month: Option<Vec<i64>>,
}

#[derive(Clone, Copy, PartialEq, Eq)]
pub enum Frequency {
    Daily,
    Weekly,
    Monthly,
    Yearly,
}

/// "`SU MO TU WE TH FR SA`, each with an optional signed ordinal"; the weekday's Sunday is 0.
pub struct WeekdayEntry {
    pub ordinal: Option<i64>,
    pub weekday: i64,
}
