//! The suite `dates`: requests about dates, days and ISO dates, every day of the range among them.

use crate::dates::{
    date_of_day, iso_of_day, month_length, FIRST_DAY, FIRST_YEAR, LAST_DAY, LAST_YEAR,
};
use crate::random::Random;

type Requests = Box<dyn Iterator<Item = String>>;

/// Random rounds for `--times 1`; a round asks each of the four functions three times.
const ROUNDS: u64 = 10_000;

/// Leap, common and century years, inside and outside the window of the sheets.
const YEARS: [i64; 17] = [
    0, 1, 3, 4, 100, 400, 1600, 1900, 1969, 1970, 2000, 2023, 2024, 2100, 9996, 9999, 10000,
];

/// One valid request of each function, as a name and its numbers.
const VALID: [(&str, &[i64]); 4] = [
    ("day_of_date", &[2024, 2, 29]),
    ("date_of_day", &[19_782]),
    ("iso_of_day", &[19_782]),
    ("day_of_iso", &[2024, 9, 4]),
];

pub fn requests(seed: u64, times: u64) -> Requests {
    let fixed: [Requests; 6] = [
        Box::new(every_day()),
        Box::new(dates_that_months_lack()),
        Box::new(beyond_the_range()),
        Box::new(wrong_months_and_days()),
        Box::new(ends_of_iso_years()),
        Box::new(extremes()),
    ];
    let mut random = Random::new(seed);
    let rounds = (0..times.saturating_mul(ROUNDS)).flat_map(move |_| random_round(&mut random));
    Box::new(fixed.into_iter().flatten().chain(rounds))
}

fn request(name: &str, numbers: &[i64]) -> String {
    let words: Vec<String> = numbers.iter().map(i64::to_string).collect();
    format!("{name} {}", words.join(" "))
}

/// The four requests about one day: both directions, for its date and its ISO date.
fn about(day: i64) -> Vec<String> {
    let mut all = vec![format!("date_of_day {day}"), format!("iso_of_day {day}")];
    if let Some(date) = date_of_day(day) {
        let (year, month, day) = (date.year, date.month, date.day);
        all.push(format!("day_of_date {year} {month} {day}"));
    }
    if let Some(iso) = iso_of_day(day) {
        let (year, week, weekday) = (iso.year, iso.week, iso.weekday);
        all.push(format!("day_of_iso {year} {week} {weekday}"));
    }
    all
}

fn every_day() -> impl Iterator<Item = String> {
    (FIRST_DAY..=LAST_DAY).flat_map(about)
}

/// The dates just beside the first and the last day of every month.
fn dates_that_months_lack() -> impl Iterator<Item = String> {
    let months = (FIRST_YEAR..=LAST_YEAR).flat_map(|year| (1..=12).map(move |month| (year, month)));
    months.flat_map(|(year, month)| {
        [0, month_length(year, month) + 1]
            .into_iter()
            .map(move |day| request("day_of_date", &[year, month, day]))
    })
}

/// The days before and after the range.
fn beyond_the_range() -> impl Iterator<Item = String> {
    let before = FIRST_DAY - 800..FIRST_DAY;
    let after = LAST_DAY + 1..=LAST_DAY + 800;
    before.chain(after).flat_map(about)
}

/// Months -1 to 14 and days -1 to 33, of years of every kind.
fn wrong_months_and_days() -> impl Iterator<Item = String> {
    let months = YEARS
        .into_iter()
        .flat_map(|year| (-1..=14).map(move |month| (year, month)));
    months.flat_map(|(year, month)| {
        (-1..=33).map(move |day| request("day_of_date", &[year, month, day]))
    })
}

/// The weeks around every year end, with weeks and weekdays that do not exist.
fn ends_of_iso_years() -> impl Iterator<Item = String> {
    let weeks = (FIRST_YEAR - 1..=LAST_YEAR + 1)
        .flat_map(|year| [0, 1, 2, 51, 52, 53, 54].map(|week| (year, week)));
    weeks.flat_map(|(year, week)| {
        (0..=8).map(move |weekday| request("day_of_iso", &[year, week, weekday]))
    })
}

/// The ends of the 64-bit numbers and the powers of two, in each place of each function.
fn extremes() -> impl Iterator<Item = String> {
    VALID.into_iter().flat_map(|(name, numbers)| {
        (0..numbers.len()).flat_map(move |place| {
            extreme_numbers(numbers[place]).into_iter().map(move |far| {
                let mut changed = numbers.to_vec();
                changed[place] = far;
                request(name, &changed)
            })
        })
    })
}

/// Numbers near a power of two, and those that are the valid one again in their lower bits.
fn extreme_numbers(valid: i64) -> Vec<i64> {
    let mut all = vec![i64::MIN, i64::MIN + 1, i64::MAX - 1, i64::MAX];
    for bit in 0..63 {
        let power = 1_i64 << bit;
        for near in [power - 1, power, power + 1] {
            all.extend([near, -near]);
        }
        all.extend([valid.wrapping_add(power), valid.wrapping_sub(power)]);
    }
    all
}

/// Random numbers that are valid, nearly valid and any at all.
fn random_round(random: &mut Random) -> Vec<String> {
    let mut all = about(random.between(FIRST_DAY, LAST_DAY));
    let near_day = random.between(FIRST_DAY - 999, LAST_DAY + 999);
    let near_year = random.between(-1, 10_001);
    let near_date = [near_year, random.between(-1, 14), random.between(-1, 33)];
    let near_iso = [near_year, random.between(-1, 55), random.between(-1, 9)];
    all.push(request("date_of_day", &[near_day]));
    all.push(request("iso_of_day", &[near_day]));
    all.push(request("day_of_date", &near_date));
    all.push(request("day_of_iso", &near_iso));
    all.push(request("date_of_day", &[random.any()]));
    all.push(request("iso_of_day", &[random.any()]));
    for name in ["day_of_date", "day_of_iso"] {
        all.push(request(name, &[random.any(), random.any(), random.any()]));
    }
    all
}
