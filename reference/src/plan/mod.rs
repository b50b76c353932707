//! The plan: its text, the load check and its meaning.

pub mod frame;

mod meaning;
mod taken;
mod text;

pub use meaning::of_plan;

use crate::zone::Zone;
use frame::{Frame, RuleFrame};

/// The frames of a plan before its end frame, and the zone that the first of them say.
#[derive(Default)]
pub struct Plan {
    pub zone: Zone,
    pub frames: Vec<Frame>,
}

/// The frames of lines without LF, whether or not they may stand together.
pub fn of_lines<'a>(lines: impl Iterator<Item = &'a str>) -> Option<Plan> {
    let mut plan = Plan::default();
    for line in lines {
        let bytes = text::bytes_of(format!("{line}\n").as_bytes())?;
        plan.add(frame::read(&bytes)?);
    }
    Some(plan)
}

/// The taken plan, or refusal 10's line: "the line number of the first line not allowed where it stands, or of
/// the line wanted after the last".
pub fn read(text: &[u8]) -> Result<Plan, u64> {
    let mut plan = Plan::default();
    let mut ended = false;
    let mut wanted_line = 1;
    for line in text.split_inclusive(|&byte| byte == b'\n') {
        let frame = text::bytes_of(line)
            .and_then(|bytes| frame::read(&bytes))
            .filter(|frame| !ended && taken::allows(&plan, frame))
            .ok_or(wanted_line)?;
        match frame {
            Frame::End { .. } => ended = true,
            other => plan.add(other),
        }
        wanted_line += 1;
    }
    if ended {
        Ok(plan)
    } else {
        Err(wanted_line)
    }
}

impl Plan {
    fn add(&mut self, frame: Frame) {
        match &frame {
            Frame::Zone { offset } => self.zone.first_offset = *offset,
            Frame::Transition(transition) => self.zone.transitions.push(transition.clone()),
            _ => {}
        }
        self.frames.push(frame);
    }
}

/// "A zero month-day pair, weekday group or position pair means no such limit."
impl RuleFrame {
    fn has_month_days(&self) -> bool {
        self.month_days != 0 || self.month_days_from_end != 0
    }

    fn has_ordinals(&self) -> bool {
        self.ordinals != [0; 5] || self.ordinals_from_end != [0; 5]
    }

    fn has_weekdays(&self) -> bool {
        self.plain_weekdays != 0 || self.has_ordinals()
    }

    fn has_positions(&self) -> bool {
        self.positions != 0 || self.positions_from_end != 0
    }

    /// "zero for no limit".
    fn has_months(&self) -> bool {
        self.months != 0
    }
}
