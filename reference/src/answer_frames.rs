//! The protocol's requests about frames, as `host/frame_driver.c` answers them.

use std::cell::RefCell;
use std::rc::Rc;

use crate::local::{LAST_MINUTE, MINUTES_OF_A_DAY};
use crate::minutes::MinuteSet;
use crate::plan::{self, frame::Frame, Plan};

thread_local! {
    /// The frames that were asked last. What they hold is worked out once for all requests about them that follow.
    static LAST: RefCell<Option<(String, Rc<MinuteSet>)>> = const { RefCell::new(None) };
}

/// Held local minutes of frames, or the day of a rule's occurrence; none if the line is no request about frames.
pub fn answer(request: &str) -> Option<String> {
    let mut words = request.splitn(4, ' ');
    let name = words.next()?;
    let number: i64 = words.next()?.parse().ok()?;
    if name == "nth" {
        let day = nth_day(number, plan::of_lines(words)?);
        return Some(day.map_or("-".to_string(), |day| day.to_string()));
    }
    let asked: usize = words.next()?.parse().ok()?;
    let minutes = held(words.next().unwrap_or_default())?;
    let found: Vec<String> = match name {
        "rising" => texts(minutes.rising_from(number).take(asked)),
        "falling" => texts(minutes.falling_from(number).take(asked)),
        _ => return None,
    };
    Some(found.join(" "))
}

fn held(frames: &str) -> Option<Rc<MinuteSet>> {
    LAST.with(|last| {
        let mut last = last.borrow_mut();
        match &*last {
            Some((asked, minutes)) if asked == frames => Some(Rc::clone(minutes)),
            _ => {
                let lines = frames.split(' ').filter(|line| !line.is_empty());
                let minutes = Rc::new(plan::of_plan(&plan::of_lines(lines)?).minutes);
                *last = Some((frames.to_string(), Rc::clone(&minutes)));
                Some(minutes)
            }
        }
    })
}

fn texts(numbers: impl Iterator<Item = i64>) -> Vec<String> {
    numbers.map(|number| number.to_string()).collect()
}

/// The local day of the count-th occurrence of a rule, *last* left out.
fn nth_day(count: i64, mut plan: Plan) -> Option<i64> {
    for frame in &mut plan.frames {
        if let Frame::Rule(rule) = frame {
            rule.last = LAST_MINUTE;
        }
    }
    let minutes = plan::of_plan(&plan).minutes;
    let found = minutes.rising_from(0).nth(count as usize - 1);
    found.map(|minute| minute / MINUTES_OF_A_DAY)
}
