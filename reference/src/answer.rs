//! The protocol: a request line and the answer line that document 01 wants for it.
//! Decimal numbers, single spaces; "A refusal answers its number [..] and zeros for every other number".

use crate::answer_frames;
use crate::answer_lines;
use crate::answer_plans;
use crate::answer_sheets;
use crate::dates;
use crate::local::is_local_minute;
use crate::zone::{Transition, Zone};

/// Refusal 5: "number or date out of range [..]; also day, ISO and local-minute entry points".
const OUT_OF_RANGE: &str = "5";

/// The answer line, without LF; none if the line is no request.
pub fn answer(request: &str) -> Option<String> {
    let mut words = request.split(' ');
    let name = words.next()?;
    match name {
        "check" | "next" | "previous" | "local" | "offset" => return answer_plans::answer(request),
        "rising" | "falling" | "nth" => return answer_frames::answer(request),
        "line" => return answer_lines::answer(request),
        "sheet" | "sheet_check" | "sheet_next" | "sheet_previous" => {
            return answer_sheets::answer(request)
        }
        _ => {}
    }
    let numbers: Option<Vec<i64>> = words.map(|word| word.parse().ok()).collect();
    match (name, numbers?.as_slice()) {
        ("day_of_date", &[year, month, day]) => {
            Some(one_number(dates::day_of_date(year, month, day)))
        }
        ("date_of_day", &[day]) => Some(three_numbers(
            dates::date_of_day(day).map(|date| [date.year, date.month, date.day]),
        )),
        ("iso_of_day", &[day]) => Some(three_numbers(
            dates::iso_of_day(day).map(|iso| [iso.year, iso.week, iso.weekday]),
        )),
        ("day_of_iso", &[year, week, weekday]) => {
            Some(one_number(dates::day_of_iso(year, week, weekday)))
        }
        ("locals" | "offsets", numbers) => zone_answer(name, numbers),
        _ => None,
    }
}

/// The instants of local minutes or the offsets at instants of a zone.
fn zone_answer(name: &str, numbers: &[i64]) -> Option<String> {
    let (first_offset, count, pairs, from, asked) = match *numbers {
        [first, count, ref pairs @ .., from, asked] => (first, count, pairs, from, asked),
        _ => return None,
    };
    if pairs.len() as i64 != 2 * count {
        return None;
    }
    let transition = |pair: &[i64]| Transition {
        instant: pair[0],
        offset: pair[1],
    };
    let zone = Zone {
        first_offset,
        transitions: pairs.chunks(2).map(transition).collect(),
    };
    let values = (from..from + asked).map(|n| match name {
        "locals" if is_local_minute(n) => zone.instant_of(n).to_string(),
        "locals" => "-".to_string(),
        _ => zone.offset_at(n).to_string(),
    });
    Some(values.collect::<Vec<_>>().join(" "))
}

fn one_number(found: Option<i64>) -> String {
    match found {
        Some(number) => format!("0 {number}"),
        None => format!("{OUT_OF_RANGE} 0"),
    }
}

fn three_numbers(found: Option<[i64; 3]>) -> String {
    match found {
        Some([first, second, third]) => format!("0 {first} {second} {third}"),
        None => format!("{OUT_OF_RANGE} 0 0 0"),
    }
}
