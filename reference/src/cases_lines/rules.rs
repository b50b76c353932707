//! Rules with every set of parts, in many orders, and with a part twice.

use super::{contexts, Case};
use crate::random::Random;

/// A Monday and a fifth, which all of the parts hold.
const START: &str = "20260105T0600";

const OTHERS: [&str; 7] = [
    "INTERVAL=2",
    "COUNT=3",
    "UNTIL=20270105T0600",
    "BYDAY=TU,MO",
    "BYMONTHDAY=5,-27",
    "BYSETPOS=1",
    "BYMONTH=3,1",
];

/// The same names with other values.
const AGAIN: [&str; 7] = [
    "INTERVAL=1",
    "COUNT=0002",
    "UNTIL=20260105T0600",
    "BYDAY=1MO",
    "BYMONTHDAY=-27",
    "BYSETPOS=-1,+1",
    "BYMONTH=0001",
];

const FREQUENCIES: [Option<&str>; 5] = [
    Some("FREQ=DAILY"),
    Some("FREQ=WEEKLY"),
    Some("FREQ=MONTHLY"),
    Some("FREQ=YEARLY"),
    None,
];

const ORDERS: usize = 4;

pub fn all(random: &mut Random) -> Vec<Case> {
    let mut all = Vec::new();
    for frequency in FREQUENCIES {
        for set in 0..1 << OTHERS.len() {
            for names in [OTHERS, AGAIN] {
                let chosen = names.iter().zip(0..).filter(|(_, bit)| set >> bit & 1 == 1);
                let parts: Vec<&str> = frequency
                    .into_iter()
                    .chain(chosen.map(|(part, _)| *part))
                    .collect();
                all.extend(in_orders(&parts, random));
                all.extend(with_one_twice(&parts, random));
            }
        }
    }
    for end in ["COUNT=2", "UNTIL=20280101T0000"] {
        let parts = [
            "FREQ=MONTHLY",
            "INTERVAL=3",
            end,
            "BYDAY=1MO,MO",
            "BYMONTHDAY=5",
            "BYSETPOS=-1",
        ];
        all.extend(all_orders(&parts).iter().map(|parts| case(parts)));
    }
    let parts = [
        "FREQ=YEARLY",
        "COUNT=2",
        "BYDAY=1MO,MO",
        "BYMONTHDAY=5",
        "BYSETPOS=-1",
        "BYMONTH=1",
    ];
    all.extend(all_orders(&parts).iter().map(|parts| case(parts)));
    all
}

fn case(parts: &[&str]) -> Case {
    let [_, _, context] = contexts::of_others();
    Case::new(context, format!("R {START} {}", parts.join(";")))
}

fn in_orders(parts: &[&str], random: &mut Random) -> Vec<Case> {
    (0..ORDERS).map(|_| case(&mixed(parts, random))).collect()
}

/// Each part once more at any place, with its value and with another.
fn with_one_twice(parts: &[&str], random: &mut Random) -> Vec<Case> {
    let mut all = Vec::new();
    for part in parts {
        let others = [OTHERS, AGAIN].concat();
        let same_name = |other: &&str| other.split('=').next() == part.split('=').next();
        let other = others.into_iter().rev().find(same_name);
        for again in [*part, other.unwrap_or("FREQ=WEEKLY")] {
            let parts = [parts, &[again]].concat();
            all.push(case(&mixed(&parts, random)));
        }
    }
    all
}

pub fn mixed<'a>(parts: &[&'a str], random: &mut Random) -> Vec<&'a str> {
    let mut parts = parts.to_vec();
    for place in 1..parts.len() {
        parts.swap(place, random.between(0, place as i64) as usize);
    }
    parts
}

fn all_orders<'a>(parts: &[&'a str]) -> Vec<Vec<&'a str>> {
    let (first, rest) = match parts.split_first() {
        Some((first, rest)) => (*first, rest),
        None => return vec![Vec::new()],
    };
    let mut all = Vec::new();
    for order in all_orders(rest) {
        for place in 0..=order.len() {
            let mut order = order.clone();
            order.insert(place, first);
            all.push(order);
        }
    }
    all
}
