//! The protocol's requests about plans, as `host/plan_driver.c` answers them. A line may have several answers,
//! with commas between.

use std::cell::RefCell;
use std::rc::Rc;

use crate::entries::{Found, Loaded};
use crate::hex::bytes_of;

thread_local! {
    /// The plan that was asked last. What it holds is worked out once for all requests about it that follow.
    static LAST: RefCell<Option<(String, Rc<Loaded>)>> = const { RefCell::new(None) };
}

/// The answer line, without LF; none if the line is no request about a plan.
pub fn answer(request: &str) -> Option<String> {
    let mut words = request.split(' ');
    let name = words.next()?;
    let plan = loaded(words.next()?);
    let numbers: Option<Vec<i64>> = words.map(|word| word.parse().ok()).collect();
    match (name, numbers?.as_slice()) {
        ("check", []) => {
            let found = plan.check();
            Some(format!("{} {}", found.number, found.line))
        }
        ("next", &[asked, count]) if count > 0 => {
            Some(texts(in_turn(asked, count, |at| plan.next(at))))
        }
        ("previous", &[asked, count]) if count > 0 => {
            Some(texts(in_turn(asked, count, |at| plan.previous(at))))
        }
        ("local", minutes @ [_, ..]) => {
            let found = minutes.iter().map(|&minute| plan.instant_of_local(minute));
            Some(texts(found))
        }
        ("offset", instants @ [_, ..]) => {
            let found = instants.iter().map(|&instant| plan.offset_at(instant));
            Some(texts(found))
        }
        _ => None,
    }
}

fn loaded(word: &str) -> Rc<Loaded> {
    LAST.with(|last| {
        let mut last = last.borrow_mut();
        match &*last {
            Some((asked, plan)) if asked == word => Rc::clone(plan),
            _ => {
                let plan = Rc::new(Loaded::new(&bytes_of(word)));
                *last = Some((word.to_string(), Rc::clone(&plan)));
                plan
            }
        }
    })
}

/// Answers that are each asked from the one before, so many, which is at least one, or up to a refusal.
pub fn in_turn(asked: i64, count: i64, search: impl Fn(i64) -> Found) -> Vec<Found> {
    let mut all = vec![search(asked)];
    while let Some(found) = all.last().filter(|found| found.number == 0) {
        if all.len() as i64 >= count {
            break;
        }
        all.push(search(found.instant));
    }
    all
}

pub fn texts(all: impl IntoIterator<Item = Found>) -> String {
    let all: Vec<String> = all
        .into_iter()
        .map(|found| format!("{} {} {}", found.number, found.line, found.instant))
        .collect();
    all.join(",")
}
