//! The answers of the entry points: "A refusal answers its number, its line or 0, and zeros for every other
//! number".

use std::cell::RefCell;
use std::rc::Rc;

use crate::compile::plan_text;
use crate::local::is_local_minute;
use crate::meaning::{of_sheet, Meaning};
use crate::plan::{self, Plan};
use crate::sheet::line::Line;
use crate::sheet::{self, Refusal};

#[derive(Clone, Copy, Debug, Default, PartialEq, Eq)]
pub struct Compiled {
    pub number: u64,
    pub line: u64,
    pub length: u64,
    pub bad_at: u64,
    pub bad_length: u64,
}

#[derive(Clone, Copy, Debug, Default, PartialEq, Eq)]
pub struct Found {
    pub number: u64,
    pub line: u64,
    pub instant: i64,
}

/// The answer, and the plan that fills the buffer's front; nothing is written on a refusal.
pub fn compile(sheet: &[u8], buffer_length: usize) -> (Compiled, String) {
    let plan = sheet::read(sheet).map(|lines| plan_text(&lines));
    written(plan, buffer_length)
}

fn written(plan: Result<String, Refusal>, buffer_length: usize) -> (Compiled, String) {
    // 9: "sheet is taken but the plan is longer than the lent buffer; line 0"
    let fitting = plan.and_then(|text| match text.len() <= buffer_length {
        true => Ok(text),
        false => Err(Refusal::without_line(9, 0)),
    });
    match fitting {
        Ok(text) => {
            let length = text.len() as u64;
            let compiled = Compiled {
                length,
                ..Compiled::default()
            };
            (compiled, text)
        }
        Err(refusal) => (refused(refusal), String::new()),
    }
}

fn refused(refusal: Refusal) -> Compiled {
    Compiled {
        number: refusal.number,
        line: refusal.line,
        length: 0,
        bad_at: refusal.bad_at,
        bad_length: refusal.bad_length,
    }
}

/// A sheet as the entry points see it: its taken lines and their plan, or its refusal 1 to 8. What it means is made when
/// first asked for, from its text: "never by way of a plan or the compiler".
pub struct Read {
    lines: Vec<Line>,
    plan: Result<String, Refusal>,
    meaning: RefCell<Option<Rc<Meaning>>>,
}

impl Read {
    pub fn new(sheet: &[u8]) -> Read {
        let (lines, refusal) = match sheet::read(sheet) {
            Ok(lines) => (lines, None),
            Err(refusal) => (Vec::new(), Some(refusal)),
        };
        Read {
            plan: refusal.map_or_else(|| Ok(plan_text(&lines)), Err),
            lines,
            meaning: RefCell::new(None),
        }
    }

    /// As `compile`.
    pub fn compile(&self, buffer_length: usize) -> (Compiled, String) {
        written(self.plan.clone(), buffer_length)
    }

    /// Next of a taken sheet's plan: what its text means.
    pub fn next(&self, asked: i64) -> Found {
        found_or_none(self.meaning().next(asked))
    }

    pub fn previous(&self, asked: i64) -> Found {
        found_or_none(self.meaning().previous(asked))
    }

    fn meaning(&self) -> Rc<Meaning> {
        let mut made = self.meaning.borrow_mut();
        Rc::clone(made.get_or_insert_with(|| Rc::new(of_sheet(&self.lines))))
    }
}

/// The instant, or 11: "no such instant".
fn found_or_none(instant: Option<i64>) -> Found {
    Found {
        number: if instant.is_some() { 0 } else { 11 },
        line: 0,
        instant: instant.unwrap_or(0),
    }
}

/// A plan as the entry points see it: taken, or the line of refusal 10. Its meaning is made when first asked for.
pub struct Loaded {
    plan: Result<Plan, u64>,
    meaning: RefCell<Option<Rc<Meaning>>>,
}

impl Loaded {
    pub fn new(plan: &[u8]) -> Loaded {
        Loaded {
            plan: plan::read(plan),
            meaning: RefCell::new(None),
        }
    }

    /// The load check: 0, or 10 and its line; the instant is 0.
    pub fn check(&self) -> Found {
        self.found(|_| Ok(0))
    }

    /// "Next and previous: 10, then 11."
    pub fn next(&self, asked: i64) -> Found {
        self.found(|plan| self.meaning(plan).next(asked).ok_or(11))
    }

    pub fn previous(&self, asked: i64) -> Found {
        self.found(|plan| self.meaning(plan).previous(asked).ok_or(11))
    }

    /// "A local minute mapped by a plan's zone: 10, then 5."
    pub fn instant_of_local(&self, minute: i64) -> Found {
        self.found(|plan| match is_local_minute(minute) {
            true => Ok(plan.zone.instant_of(minute)),
            false => Err(5),
        })
    }

    /// The offset at an instant by a plan's zone: 10. The offset stands in the place of an instant.
    pub fn offset_at(&self, instant: i64) -> Found {
        self.found(|plan| Ok(plan.zone.offset_at(instant)))
    }

    fn meaning(&self, plan: &Plan) -> Rc<Meaning> {
        let mut made = self.meaning.borrow_mut();
        Rc::clone(made.get_or_insert_with(|| Rc::new(plan::of_plan(plan))))
    }

    /// 10 and its line first; then the search's own number, with line 0; else the instant.
    fn found(&self, search: impl Fn(&Plan) -> Result<i64, u64>) -> Found {
        let (number, line, instant) = match &self.plan {
            Err(line) => (10, *line, 0),
            Ok(plan) => match search(plan) {
                Err(number) => (number, 0, 0),
                Ok(instant) => (0, 0, instant),
            },
        };
        Found {
            number,
            line,
            instant,
        }
    }
}
