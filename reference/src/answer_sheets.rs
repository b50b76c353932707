//! The protocol's requests about whole sheets, as `host/sheet_driver.c` answers them. What is asked of a sheet's plan is
//! answered by what the sheet's text means.

use std::cell::RefCell;
use std::rc::Rc;

use crate::answer_plans::{in_turn, texts};
use crate::entries::Read;
use crate::shown::{bytes_of, shown};

thread_local! {
    /// The sheet that was asked last. It is read, and what it means worked out, once for all requests about it that follow.
    static LAST: RefCell<Option<(String, Rc<Read>)>> = const { RefCell::new(None) };
}

/// The request to compile a sheet into a buffer of so many bytes.
pub fn request(room: usize, sheet: &[u8]) -> String {
    format!("sheet {room} {}", shown(sheet))
}

/// The answer line, without LF; none if the line is no request about a sheet.
pub fn answer(request: &str) -> Option<String> {
    let (name, rest) = request.split_once(' ')?;
    match name {
        "sheet" => {
            let (room, text) = rest.split_once(' ')?;
            let sheet = read(text)?;
            Some(compiled(&sheet, room.parse().ok()?))
        }
        "sheet_check" => {
            let sheet = read(rest)?;
            Some(of_taken(&sheet, || "0 0".to_string())) // "Every compiled plan is taken."
        }
        "sheet_next" | "sheet_previous" => {
            let mut words = rest.splitn(3, ' ');
            let count: Option<i64> = words.next()?.parse().ok();
            let count = count.filter(|&count| count > 0)?;
            let instants = words.next()?.split(',').map(|word| word.parse().ok());
            let instants: Vec<i64> = instants.collect::<Option<_>>()?;
            let sheet = read(words.next()?)?;
            Some(of_taken(&sheet, || {
                searched(&sheet, name, &instants, count)
            }))
        }
        _ => None,
    }
}

fn read(text: &str) -> Option<Rc<Read>> {
    LAST.with(|last| {
        let mut last = last.borrow_mut();
        match &*last {
            Some((asked, sheet)) if asked == text => Some(Rc::clone(sheet)),
            _ => {
                let sheet = Rc::new(Read::new(&bytes_of(text)?));
                *last = Some((text.to_string(), Rc::clone(&sheet)));
                Some(sheet)
            }
        }
    })
}

/// `NUMBER LINE LENGTH BAD_AT BAD_LENGTH PLAN`.
fn compiled(sheet: &Read, room: usize) -> String {
    let (answer, plan) = sheet.compile(room);
    let plan = match plan.as_str() {
        "" => "-".to_string(),
        text => shown(text.as_bytes()),
    };
    format!(
        "{} {} {} {} {} {plan}",
        answer.number, answer.line, answer.length, answer.bad_at, answer.bad_length
    )
}

/// What is asked of a sheet's plan; where there is no plan that is said.
fn of_taken(sheet: &Read, asked: impl Fn() -> String) -> String {
    let (compiled, _) = sheet.compile(usize::MAX);
    match compiled.number {
        0 => asked(),
        number => format!("no plan: {number} {}", compiled.line),
    }
}

fn searched(sheet: &Read, name: &str, instants: &[i64], count: i64) -> String {
    let found = instants.iter().flat_map(|&asked| match name {
        "sheet_next" => in_turn(asked, count, |at| sheet.next(at)),
        _ => in_turn(asked, count, |at| sheet.previous(at)),
    });
    texts(found)
}
