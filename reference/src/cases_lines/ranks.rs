//! Lines to which one, two or more of the refusals 2 to 8 apply, made on purpose: a line that is taken, with faults.

use super::rules::mixed;
use super::{contexts, Case};
use crate::answer_lines::Context;
use crate::random::Random;

pub const TAGS: [char; 6] = ['Z', 'T', 'C', 'R', 'D', 'X'];
pub const NUMBERS: [u64; 7] = [2, 3, 4, 5, 6, 7, 8];

/// Random sets of faults.
const SETS: usize = 8_000;

/// A refusal's number, and one of the ways in which a line of the kind can have it.
pub type Fault = (u64, usize);

/// Every fault, every pair of faults of two numbers, with the parts in order and mixed, and random sets of faults.
pub fn all(random: &mut Random) -> Vec<Case> {
    let mut all = Vec::new();
    for tag in TAGS {
        let faults = faults_of(tag);
        all.extend(faults.iter().map(|&fault| case(tag, &[fault])));
        for (one, other) in pairs(tag) {
            all.push(case(tag, &[one, other]));
            all.push(mixed_case(tag, &[one, other], random));
        }
    }
    for _ in 0..SETS {
        let tag = ['T', 'T', 'R', 'R', 'R', 'R', 'C', 'Z', 'D', 'X'][random.between(0, 9) as usize];
        let faults = some_faults(tag, random);
        all.push(mixed_case(tag, &faults, random));
    }
    all
}

/// Every fault of a kind of line.
pub fn faults_of(tag: char) -> Vec<Fault> {
    let ways = |number| (0..ways_of(tag, number)).map(move |way| (number, way));
    NUMBERS.into_iter().flat_map(ways).collect()
}

/// Every two faults of different numbers, the lower first.
pub fn pairs(tag: char) -> Vec<(Fault, Fault)> {
    let faults = faults_of(tag);
    let with_higher = |&one: &Fault| {
        let others = faults_of(tag).into_iter();
        let higher = others.filter(move |other| other.0 > one.0);
        higher.map(move |other| (one, other))
    };
    faults.iter().flat_map(with_higher).collect()
}

/// At most one fault of each number.
fn some_faults(tag: char, random: &mut Random) -> Vec<Fault> {
    let mut faults = Vec::new();
    for number in NUMBERS {
        let ways = ways_of(tag, number) as i64;
        let likely = if number < 4 { 6 } else { 3 }; // or few lines would show the higher ones
        if ways > 0 && random.between(1, likely) <= 2 {
            faults.push((number, random.between(0, ways - 1) as usize));
        }
    }
    faults
}

/// The line with these faults.
pub fn case(tag: char, faults: &[Fault]) -> Case {
    Draft::with(tag, faults).case()
}

fn mixed_case(tag: char, faults: &[Fault], random: &mut Random) -> Case {
    let mut draft = Draft::with(tag, faults);
    let parts: Vec<&str> = draft.parts.iter().map(String::as_str).collect();
    let mixed = mixed(&parts, random).into_iter().map(str::to_string);
    draft.parts = mixed.collect();
    draft.case()
}

const FORMS: usize = 9;
const BYTES: usize = 10;

/// In how many ways a line of the kind can have a fault.
fn ways_of(tag: char, number: u64) -> usize {
    let places = |tag| match tag {
        'Z' => 3,
        'T' => 2 + contexts::TOO_MANY.len(),
        _ => 1,
    };
    match (number, tag) {
        (2, _) => BYTES,
        (3, _) => FORMS + OWN_FORMS.iter().filter(|(of, _)| *of == tag).count(),
        (4, _) => places(tag),
        (5, 'R') => RULE_NUMBERS.len() + BAD_TIMES.len(),
        (5, 'T') => BAD_TIMES.len() + BAD_OFFSETS.len(),
        (5, 'Z') => BAD_OFFSETS.len(),
        (5, 'C') => BAD_FIELDS.len(),
        (5, _) => BAD_TIMES.len(),
        (6, 'R') => 22,
        (7, 'T') => 4,
        (8, 'R') => 6,
        _ => 0,
    }
}

/// What only a line of this kind can have at its end.
const OWN_FORMS: [(char, &str); 37] = [
    ('Z', "0"),
    ('Z', " +0100"),
    ('T', "0"),
    ('T', " +0100"),
    ('C', " *"),
    ('C', ","),
    ('C', "/2"),
    ('C', "-"),
    ('C', ",*"),
    ('C', ",00001"),
    ('R', ";"),
    ('R', ";;INTERVAL=1"),
    ('R', ";WKST=MO"),
    ('R', ";INTERVAL=+1"),
    ('R', ";INTERVAL=00001"),
    ('R', ";COUNT=10000"),
    ('R', ";COUNT=-1"),
    ('R', ";FREQ=HOURLY"),
    ('R', ";UNTIL=20270101"),
    ('R', ";UNTIL=20270101T0000Z"),
    ('R', ";UNTIL=20270101T00000"),
    ('R', ";BYDAY="),
    ('R', ";BYDAY=+MO"),
    ('R', ";BYMONTHDAY=1,,2"),
    ('R', ";BYSETPOS=,1"),
    ('R', ";BYMONTH="),
    ('R', ";BYMONTH=+1"),
    ('R', ";BYMONTH=1,,2"),
    ('R', ";BYMONTH=00001"),
    ('D', "Z"),
    ('D', "0"),
    ('D', "000"),
    ('D', " 20260105T0600"),
    ('X', "Z"),
    ('X', "0"),
    ('X', "000"),
    ('X', " 20260105T0600"),
];

const BAD_TIMES: [&str; 10] = [
    "20260105T2400",
    "20260105T0660",
    "20260132T0600",
    "20260100T0600",
    "20270229T0600",
    "20261305T0600",
    "19991231T0600",
    "21000101T0600",
    "20260105T060001",
    "20260105T060060",
];

const BAD_OFFSETS: [&str; 4] = ["+1401", "-1201", "-0000", "+0160"];

const BAD_FIELDS: [&str; 10] = [
    "60 0 1 1 1",
    "0 24 1 1 1",
    "0 0 0 1 1",
    "0 0 32 1 1",
    "0 0 1 0 1",
    "0 0 1 13 1",
    "0 0 1 1 7",
    "5-4 0 1 1 1",
    "0 0 1 1 6-0",
    "1,2,9999 0 1 1 1",
];

/// Numbers out of range, in a part that the rule has or as one more.
const RULE_NUMBERS: [(&str, &str); 16] = [
    ("INTERVAL", "0"),
    ("INTERVAL", "1000"),
    ("COUNT", "0"),
    ("UNTIL", "20270230T0000"),
    ("UNTIL", "21000101T0000"),
    ("UNTIL", "20270101T000030"),
    ("BYDAY", "6MO"),
    ("BYDAY", "-0MO"),
    ("BYDAY", "MO,9999TU"),
    ("BYMONTHDAY", "32"),
    ("BYMONTHDAY", "0"),
    ("BYSETPOS", "-32"),
    ("BYSETPOS", "1,+0"),
    ("BYMONTH", "0"),
    ("BYMONTH", "13"),
    ("BYMONTH", "1,9999"),
];

/// A line in the making: the words, of a rule then its parts; and faults of the text and of its bytes.
struct Draft {
    context: Context,
    words: Vec<String>,
    parts: Vec<String>,
    form: Option<usize>,
    bytes: Option<usize>,
}

impl Draft {
    fn with(tag: char, faults: &[Fault]) -> Draft {
        let mut draft = Draft::taken(tag);
        let mut faults = faults.to_vec();
        faults.sort_by_key(|fault| std::cmp::Reverse(*fault)); // so that a lower one is not undone
        for (number, way) in faults {
            match number {
                2 => draft.bytes = Some(way),
                3 => draft.form = Some(way),
                4 => draft.context = wrong_place(tag, way),
                5 => draft.put_out_of_range(tag, way),
                6 => draft.put_apart(way),
                7 => draft.break_a_limit(way),
                _ => draft.move_start(way),
            }
        }
        draft
    }

    /// A Monday that is a fifth; a transition by an hour, later than it must be.
    fn taken(tag: char) -> Draft {
        let [_, _, after_lines] = contexts::of_others();
        let (context, words, parts) = match tag {
            'Z' => (contexts::nothing(), "Z +0100", ""),
            'T' => (contexts::after(3, 0, 60), "T 20260329T0100 +0200", ""),
            'C' => (after_lines, "C 0 0 1 1 1", ""),
            'R' => (after_lines, "R 20260105T0600", "FREQ=MONTHLY;BYDAY=MO"),
            'D' => (after_lines, "D 20260105T0600", ""),
            _ => (after_lines, "X 20260105T0600", ""),
        };
        let split = |text: &str, at| text.split(at).map(str::to_string).collect();
        Draft {
            context,
            words: split(words, ' '),
            parts: if tag == 'R' {
                split(parts, ';')
            } else {
                Vec::new()
            },
            form: None,
            bytes: None,
        }
    }

    fn case(&self) -> Case {
        let mut line = self.words.join(" ");
        if !self.parts.is_empty() {
            line = format!("{line} {}", self.parts.join(";"));
        }
        if let Some(way) = self.form {
            line = malformed(&line, way);
        }
        let mut bytes = line.into_bytes();
        if let Some(way) = self.bytes {
            spoil(&mut bytes, way);
        }
        Case::new(self.context, bytes)
    }

    /// Refusal 5.
    fn put_out_of_range(&mut self, tag: char, way: usize) {
        match (tag, way.checked_sub(BAD_TIMES.len())) {
            ('Z', _) => self.words[1] = BAD_OFFSETS[way].to_string(),
            ('C', _) => {
                let fields = BAD_FIELDS[way].split(' ').map(str::to_string);
                self.words = self.words[..1].iter().cloned().chain(fields).collect();
            }
            (_, None) => self.words[1] = BAD_TIMES[way].to_string(),
            ('T', Some(way)) => self.words[2] = BAD_OFFSETS[way].to_string(),
            (_, Some(way)) => {
                let (name, value) = RULE_NUMBERS[way];
                self.add(name, value);
            }
        }
    }

    /// The value as one more of the part's list, in place of its value, or as one more part.
    fn add(&mut self, name: &str, value: &str) {
        let is_list = name.starts_with("BY");
        let had = self.parts.iter_mut().find(|part| named(part, name));
        match had {
            Some(part) if is_list => *part = format!("{part},{value}"),
            Some(part) => *part = format!("{name}={value}"),
            None => self.parts.push(format!("{name}={value}")),
        }
    }

    fn remove(&mut self, name: &str) {
        self.parts.retain(|part| !named(part, name));
    }

    fn push(&mut self, parts: &[&str]) {
        self.parts.extend(parts.iter().map(|part| part.to_string()));
    }

    /// Refusal 6.
    fn put_apart(&mut self, way: usize) {
        let frequency = match way {
            5 | 7 | 9 | 20 | 21 => "WEEKLY",
            6 | 8 | 19 => "DAILY",
            16 | 17 => "YEARLY",
            _ => "MONTHLY",
        };
        self.add("FREQ", frequency);
        match way {
            0 => self.remove("FREQ"),
            1 => self.push(&["FREQ=MONTHLY"]),
            2 => self.push(&["FREQ=WEEKLY"]),
            3 => self.push(&["BYDAY=MO"]),
            4 => {
                self.remove("COUNT");
                self.push(&["COUNT=2"]);
                if !self.parts.iter().any(|part| named(part, "UNTIL")) {
                    self.push(&["UNTIL=20270101T0000"]);
                }
            }
            5 | 6 => self.add("BYDAY", "1MO"),
            7 => self.push(&["BYMONTHDAY=5"]),
            8 | 9 => self.push(&["BYSETPOS=1"]),
            10 => {
                self.remove("BYDAY");
                self.push(&["BYSETPOS=1"]);
            }
            11 => self.push(&["INTERVAL=1", "INTERVAL=1"]),
            12 => self.push(&["COUNT=3", "COUNT=2"]),
            13 => self.push(&["UNTIL=20270101T0000", "UNTIL=20270101T0000"]),
            14 => self.push(&["BYMONTHDAY=5", "BYMONTHDAY=5"]),
            15 => self.push(&["BYSETPOS=1", "BYSETPOS=1"]),
            _ => self.put_months_apart(way),
        }
    }

    /// The same by what T-01 brought.
    fn put_months_apart(&mut self, way: usize) {
        match way {
            16 => {
                self.remove("BYMONTH");
                self.add("BYDAY", "1MO");
            }
            17 => {
                self.remove("BYDAY");
                self.push(&["BYSETPOS=1", "BYMONTH=1"]);
            }
            18 => self.push(&["BYMONTH=1", "BYMONTH=1"]),
            19 | 20 => {
                self.add("BYDAY", "1MO");
                self.add("BYMONTH", "1");
            }
            _ => self.push(&["BYSETPOS=1", "BYMONTH=1"]),
        }
    }

    /// Refusal 7: no change of offset, two too large ones, and a distance that is a minute too small.
    fn break_a_limit(&mut self, way: usize) {
        match way {
            0 => self.words[2] = "+0100".to_string(),
            1 => self.words[2] = "+0401".to_string(),
            2 => self.words[2] = "-0201".to_string(),
            _ => self.context = contexts::after(3, 13_801_020 - 2_879, 60), // from 2026-03-29 01:00 UTC
        }
    }

    /// Refusal 8: a Tuesday, an end that is a minute or far too early, or both; other months, and another place in the year.
    fn move_start(&mut self, way: usize) {
        if [0, 2].contains(&way) {
            self.words[1] = "20260106T0600".to_string();
        }
        match way {
            1 => self.push(&["UNTIL=20260105T0559"]),
            2 => self.push(&["UNTIL=20260106T0559"]),
            3 => self.push(&["UNTIL=20000101T0000"]),
            4 => self.push(&["BYMONTH=2,12"]),
            5 => {
                self.add("FREQ", "YEARLY");
                self.push(&["BYSETPOS=2"]);
            }
            _ => {}
        }
    }
}

fn named(part: &str, name: &str) -> bool {
    part.split('=').next() == Some(name)
}

/// Refusal 4.
fn wrong_place(tag: char, way: usize) -> Context {
    let after = contexts::after(2, 0, 60);
    match (tag, way) {
        ('Z', 0) => contexts::zone(60),
        ('Z', 1) => after,
        ('Z', _) => contexts::lines(after),
        ('T', 1) => contexts::lines(after),
        ('T', 2..) => contexts::after(contexts::TOO_MANY[way - 2], 0, 60),
        _ => contexts::nothing(),
    }
}

/// Refusal 3.
fn malformed(line: &str, way: usize) -> String {
    let (tag, rest) = line.split_at(1);
    match way {
        0 => format!("{line} "),
        1 => format!("{}{rest}", tag.to_lowercase()),
        2 => format!("Q{rest}"),
        3 => format!("{tag} {rest}"),
        4 => format!("{tag}{}", rest.trim_start()),
        5 => format!(" {line}"),
        6 => tag.to_string(),
        7 => format!("{tag} "),
        8 => format!("{line}x"),
        _ => {
            let own = OWN_FORMS.iter().filter(|(of, _)| tag.starts_with(*of));
            let after = own.map(|(_, after)| *after).nth(way - FORMS);
            format!("{line}{}", after.unwrap_or("~"))
        }
    }
}

/// Refusal 2.
fn spoil(line: &mut Vec<u8>, way: usize) {
    let (half, last) = (line.len() / 2, line.len() - 1);
    match way {
        0 => line[0] = 0x00,
        1 => line[half] = 0x1F,
        2 => line[last] = 0x7F,
        3 => line.insert(half, b'\n'),
        4 => line.push(b'\n'),
        5 => line.push(0xFF),
        6 => line.resize(257, b' '),
        7 => line.resize(300, b'0'),
        8 => line[half] = 0x80,
        _ => line.insert(0, b'\t'),
    }
}
