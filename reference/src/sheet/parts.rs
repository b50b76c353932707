//! The parts of a rule together: refusal 6, "parts that don't go together".

use super::form::{Form, Part};
use super::line::{Cron, Frequency, Line, Rule};
use super::range::InRange;
use crate::zone::Transition;

/// The line with its rule parts put together; none if they do not go together.
pub fn put_together(line: InRange) -> Option<Line> {
    Some(match line {
        Form::Zone(offset) => Line::Zone(offset),
        Form::Transition(instant, offset) => Line::Transition(Transition { instant, offset }),
        Form::Cron([minute, hour, day_of_month, month, day_of_week]) => Line::Cron(Cron {
            minute,
            hour,
            day_of_month,
            month,
            day_of_week,
        }),
        Form::Rule(start, parts) => Line::Rule(rule(start, parts)?),
        Form::Extra(minute) => Line::Extra(minute),
        Form::Excepted(minute) => Line::Excepted(minute),
    })
}

fn rule(start: i64, parts: Vec<Part<i64>>) -> Option<Rule> {
    let mut frequency = None;
    let mut interval = None;
    let (mut count, mut until) = (None, None);
    let (mut by_day, mut by_month_day, mut by_set_pos) = (None, None, None);
    let mut by_month = None;
    for part in parts {
        match part {
            Part::Freq(value) => once(&mut frequency, value)?,
            Part::Interval(value) => once(&mut interval, value)?,
            Part::Count(value) => once(&mut count, value)?,
            Part::Until(value) => once(&mut until, value)?,
            Part::ByDay(value) => once(&mut by_day, value)?,
            Part::ByMonthDay(value) => once(&mut by_month_day, value)?,
            Part::BySetPos(value) => once(&mut by_set_pos, value)?,
            Part::ByMonth(value) => once(&mut by_month, value)?,
        }
    }
    let rule = Rule {
        start,
        frequency: frequency?, // "FREQ missing"
        interval: interval.unwrap_or(1),
        count,
        until,
        by_day,
        by_month_day,
        by_set_pos,
        by_month,
    };
    go_together(&rule).then_some(rule)
}

/// "a part twice".
fn once<Value>(slot: &mut Option<Value>, value: Value) -> Option<()> {
    slot.replace(value).is_none().then_some(())
}

fn go_together(rule: &Rule) -> bool {
    let weekly = rule.frequency == Frequency::Weekly;
    let yearly = rule.frequency == Frequency::Yearly;
    let monthly_or_yearly = rule.frequency == Frequency::Monthly || yearly;
    let has_ordinal = rule.by_day.iter().flatten().any(|e| e.ordinal.is_some());
    let no_month = rule.by_month.is_none();
    let neither = rule.by_day.is_none() && rule.by_month_day.is_none();
    let apart = [
        rule.count.is_some() && rule.until.is_some(), // "COUNT with UNTIL"
        has_ordinal && !monthly_or_yearly,            // "ordinal outside MONTHLY", or now YEARLY
        has_ordinal && yearly && no_month,            // there they "need BYMONTH, else refusal 6"
        rule.by_month_day.is_some() && weekly,        // "BYMONTHDAY with WEEKLY"
        rule.by_set_pos.is_some() && !monthly_or_yearly, // "BYSETPOS outside MONTHLY", or now YEARLY
        rule.by_set_pos.is_some() && neither,            // "or with neither BYDAY nor BYMONTHDAY"
    ];
    !apart.contains(&true)
}
