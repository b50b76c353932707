//! "A plan is taken exactly if": whether one frame may stand after those before it.

use super::frame::{CronFrame, Frame, RuleFrame};
use super::meaning::start_is_occurrence;
use super::Plan;
use crate::local::is_local_minute;
use crate::zone::{Transition, MOST_TRANSITIONS, OFFSETS};

/// "at most 64 before the end frame".
const MOST_FRAMES: usize = 64;

/// The bits that are named: minutes 0 to 59, hours 0 to 23, days 1 to 31, months 1 to 12, weekdays 0 to 6.
const MINUTES: u64 = (1 << 60) - 1;
const HOURS: u64 = (1 << 24) - 1;
const DAYS: u64 = (1 << 32) - 2;
const MONTHS: u64 = (1 << 13) - 2;
const WEEKDAYS: u64 = (1 << 7) - 1;

pub fn allows(before: &Plan, frame: &Frame) -> bool {
    let frames_before = before.frames.len();
    match frame {
        // "01 first"; "offsets in range"
        Frame::Zone { offset } => frames_before == 0 && OFFSETS.contains(offset),
        _ if frames_before == 0 => false,
        // "its number right"
        Frame::End { frames } => *frames == frames_before as u64,
        _ if frames_before == MOST_FRAMES => false,
        Frame::Transition(transition) => transition_allowed(before, transition),
        Frame::Cron(cron) => cron_allowed(cron),
        Frame::Rule(rule) => rule_allowed(rule),
        // "local minutes in range"
        Frame::Extra { minute } | Frame::Excepted { minute } => is_local_minute(*minute),
    }
}

/// "then up to 32 of 02 under the zone limits, instants 0 to 52,595,999, offsets in range, then others".
fn transition_allowed(before: &Plan, transition: &Transition) -> bool {
    let transitions_before = before.zone.transitions.len();
    before.frames.len() == transitions_before + 1
        && transitions_before < MOST_TRANSITIONS
        && is_local_minute(transition.instant)
        && OFFSETS.contains(&transition.offset)
        && before.zone.allows(transition)
}

/// "cron masks non-zero, only named bits, a flag not set only with a full mask, other flag bits 0"; the month's flag,
/// "clear, [..] needs a full month mask".
fn cron_allowed(cron: &CronFrame) -> bool {
    let masks = [
        (cron.minutes, MINUTES),
        (cron.hours, HOURS),
        (cron.days, DAYS),
        (cron.months, MONTHS),
        (cron.weekdays, WEEKDAYS),
    ];
    let masks_hold = masks
        .iter()
        .all(|(mask, named)| *mask != 0 && mask & !named == 0);
    let days_flag_holds = cron.flags & 1 != 0 || cron.days == DAYS;
    let weekdays_flag_holds = cron.flags & 2 != 0 || cron.weekdays == WEEKDAYS;
    let months_flag_holds = cron.flags & 4 != 0 || cron.months == MONTHS;
    let flags_hold = days_flag_holds && weekdays_flag_holds && months_flag_holds;
    masks_hold && flags_hold && cron.flags <= 7
}

fn rule_allowed(rule: &RuleFrame) -> bool {
    // "interval 1 to 999; local minutes in range; start not above last"
    let numbers_hold = (1..=999).contains(&rule.interval)
        && is_local_minute(rule.start)
        && is_local_minute(rule.last)
        && rule.start <= rule.last;
    numbers_hold && rule_masks_hold(rule) && parts_hold(rule) && start_is_occurrence(rule)
}

/// "mask bits only in named places"; of the month mask "bits 1 to 12 only".
fn rule_masks_hold(rule: &RuleFrame) -> bool {
    let days = [
        rule.month_days,
        rule.month_days_from_end,
        rule.positions,
        rule.positions_from_end,
    ];
    let mut weekdays = vec![rule.plain_weekdays];
    weekdays.extend(rule.ordinals);
    weekdays.extend(rule.ordinals_from_end);
    days.iter().all(|mask| mask & !DAYS == 0)
        && weekdays.iter().all(|mask| mask & !WEEKDAYS == 0)
        && rule.months & !MONTHS == 0
}

/// The month mask is "free in every frequency".
fn parts_hold(rule: &RuleFrame) -> bool {
    let no_ordinals = !rule.has_ordinals();
    let no_positions = !rule.has_positions();
    match rule.frequency {
        // "daily: ordinals and positions zero"
        1 => no_ordinals && no_positions,
        // "weekly: weekday mask set, all else after it zero", but for the month mask
        2 => rule.plain_weekdays != 0 && !rule.has_month_days() && no_ordinals && no_positions,
        // "monthly: at least one month day or weekday set"
        3 => rule.has_month_days() || rule.has_weekdays(),
        // "only with a month day or weekday set, and with a month set where an ordinal is"
        4 => {
            let days_hold = rule.has_month_days() || rule.has_weekdays();
            days_hold && (no_ordinals || rule.has_months())
        }
        _ => false,
    }
}
