//! Whole sheets: the reference's answers, what the suite `sheets` asks, and that wrong drivers are caught.

use std::collections::{BTreeMap, BTreeSet};
use std::time::Duration;

use reference::answer::answer;
use reference::answer_sheets::request;
use reference::cases_sheets::{lengths, requests};
use reference::compare::{compare, Tally};
use reference::entries::{compile, Loaded, Read};
use reference::generate::{midnight_sheet, sheet, sheet_of_lines};
use reference::random::Random;
use reference::sheet::read;
use reference::shown::bytes_of;

const BINARY: &str = env!("CARGO_BIN_EXE_reference");
const PATIENCE: Duration = Duration::from_secs(60);

const EXAMPLE: &str = "\
Z +0100
T 20260329T0100 +0200
T 20261025T0100 +0100
C 30 2 * * *
";

fn answered(request: &str) -> String {
    answer(request).unwrap_or_else(|| panic!("no request: {request}"))
}

/// Document 01's example: in buffers of all lengths, and its marked cases h and i.
#[test]
fn the_example() {
    let plan = "01003C\\0A0200D2963C0078\\0A0200D7337C003C\\0A\
        03000000004000000000000004FFFFFFFE1FFE7F00\\0AFF04\\0A";
    let taken = format!("0 0 85 0 0 {plan}");
    for (room, wanted) in [
        (0, "9 0 0 0 0 -"),
        (84, "9 0 0 0 0 -"),
        (85, &taken),
        (99, &taken),
    ] {
        assert_eq!(
            answered(&request(room, EXAMPLE.as_bytes())),
            wanted,
            "{room}"
        );
    }
    let text = "Z +0100\\0AT 20260329T0100 +0200\\0AT 20261025T0100 +0100\\0AC 30 2 * * *\\0A";
    assert_eq!(answered(&format!("sheet_check {text}")), "0 0");
    let next = answered(&format!("sheet_next 1 13801049,14103389,52595999 {text}"));
    assert_eq!(next, "0 0 13801050,0 0 14103390,11 0 0");
    let next = answered(&format!("sheet_next 2 13801049,14103389 {text}"));
    assert_eq!(next, "0 0 13801050,0 0 13802430,0 0 14103390,0 0 14104890");
    let previous = answered(&format!("sheet_previous 2 13802430 {text}"));
    assert_eq!(previous, "0 0 13801050,0 0 13799610");
}

#[test]
fn refused_sheets() {
    for (text, wanted) in [
        ("", "4 1 0 0 0 -"),
        ("\\0A", "3 1 0 0 0 -"),
        ("Z +0100", "2 1 0 0 7 -"),
        ("Z +0100\\0AD 20260105T2400\\0A\\0A", "5 2 0 8 15 -"),
        ("Z +0100\\0A\\0AD", "3 2 0 8 0 -"),
    ] {
        assert_eq!(answered(&format!("sheet 0 {text}")), wanted, "{text}");
    }
    assert_eq!(answered("sheet_check Z"), "no plan: 2 1");
    assert_eq!(answered("sheet_next 3 0 \\0A"), "no plan: 3 1");
    for bad in [
        "sheet Z",
        "sheet x Z",
        "sheet 5 \\0",
        "sheet_next 1 Z",
        "sheet_next 1 0,x Z",
        "sheet_next 0 0 Z +0100\\0A",
        "sheet_previous 0 0 Z +0100\\0A",
    ] {
        assert_eq!(answer(bad), None, "{bad}");
    }
}

/// A sheet that is read once answers as `compile` does, and as its plan does.
#[test]
fn read_sheets() {
    let mut random = Random::new(1);
    for _ in 0..20 {
        for text in [sheet(&mut random), midnight_sheet(&mut random)] {
            let once = Read::new(text.as_bytes());
            let (compiled, plan) = compile(text.as_bytes(), usize::MAX);
            let length = compiled.length as usize;
            for room in [0, length - 1, length, length + 1] {
                assert_eq!(once.compile(room), compile(text.as_bytes(), room), "{text}");
            }
            let loaded = Loaded::new(plan.as_bytes());
            for _ in 0..20 {
                let asked = random.between(-2_000, 52_600_000);
                assert_eq!(once.next(asked), loaded.next(asked), "{asked}\n{text}");
                assert_eq!(
                    once.previous(asked),
                    loaded.previous(asked),
                    "{asked}\n{text}"
                );
            }
        }
    }
}

#[test]
fn sheets_of_so_many_lines() {
    let mut random = Random::new(1);
    let mut tags = BTreeSet::new();
    for number in 1..=64 {
        let text = sheet_of_lines(number, &mut random);
        assert!(read(text.as_bytes()).is_ok(), "{text}");
        assert_eq!(text.lines().count(), number);
        tags.extend(text.lines().map(|line| line.as_bytes()[0]));
    }
    assert_eq!(tags, BTreeSet::from(*b"ZTCRDX"));
}

/// The sheet of a request to compile, and its room.
fn compiled(request: &str) -> Option<(usize, Vec<u8>)> {
    let (room, text) = request.strip_prefix("sheet ")?.split_once(' ')?;
    Some((room.parse().ok()?, bytes_of(text)?))
}

/// Each refusal often, and at every line at which it can be.
#[test]
fn the_suite_asks_each_refusal_at_every_place() {
    let mut numbers: BTreeMap<u64, u64> = BTreeMap::new();
    let mut places = BTreeSet::new();
    let mut asked = requests(1, 0)
        .filter_map(|request| compiled(&request))
        .collect::<Vec<_>>();
    asked.dedup_by(|(_, one), (_, other)| one == other);
    for (_, sheet) in asked {
        let refusal = read(&sheet).err();
        let (number, line) = refusal.map_or((0, 0), |refusal| (refusal.number, refusal.line));
        *numbers.entry(number).or_default() += 1;
        places.insert((number, line));
    }
    for (number, lines) in [
        (2, 1..65),
        (3, 1..65),
        (4, 1..65),
        (5, 1..65),
        (6, 2..65),
        (7, 2..34),
        (8, 2..65),
    ] {
        for line in lines {
            assert!(places.contains(&(number, line)), "{number} at {line}");
        }
    }
    for number in 0..=8 {
        assert!(numbers[&number] >= 100, "{numbers:?}");
    }
}

/// Sheets at both sides of the limits, with an LF at the end and without, and as long as README says.
#[test]
fn the_suite_asks_the_longest_sheets() {
    let mut seen = BTreeSet::new();
    let (mut all_lengths, mut all_lines) = (BTreeSet::new(), BTreeSet::new());
    for sheet in lengths::all() {
        let lines = sheet.split_inclusive(|&byte| byte == b'\n').count();
        let number = read(&sheet).map_or_else(|refusal| refusal.number, |_| 0);
        all_lengths.insert(sheet.len());
        all_lines.insert(lines);
        seen.insert((
            sheet.len().clamp(16_447, 16_450),
            lines.clamp(63, 66),
            sheet.ends_with(b"\n"),
            number == 1,
        ));
    }
    for length in (16_445..=16_452).chain([0, 20_000]) {
        assert!(all_lengths.contains(&length), "{length}");
    }
    assert_eq!(all_lengths.iter().max(), Some(&131_137));
    for lines in (0..=71).chain([517]) {
        assert!(all_lines.contains(&lines), "{lines}");
    }
    for ended in [true, false] {
        for (length, lines, refused) in [
            (16_447, 63, false),
            (16_447, 64, false),
            (16_447, 65, true),
            (16_448, 64, false),
            (16_449, 64, true),
            (16_448, 65, true),
            (16_450, 66, true),
        ] {
            assert!(
                seen.contains(&(length, lines, ended, refused)),
                "{length} {lines} {ended}"
            );
        }
    }
    for lines in [1, 2, 63, 64] {
        let longest = lengths::longest_taken(lines);
        assert_eq!(
            (longest.len(), read(&longest).is_ok()),
            (8 + 257 * (lines - 1), true)
        );
    }
}

/// "no plan is longer": in a buffer of a byte too few, of just enough and of a byte more.
#[test]
fn the_suite_asks_the_longest_plan() {
    let longest = lengths::longest_plan();
    let compiled = requests(1, 0).filter_map(|request| compiled(&request));
    let asked = compiled.filter(|(_, sheet)| sheet == longest.as_bytes());
    let rooms: BTreeSet<usize> = asked.map(|(room, _)| room).collect();
    for (room, wanted) in [
        (5_240, "9 0 0 0 0 -"),
        (5_241, "0 0 5241 0 0 01003C\\0A04"),
        (5_242, "0 0 5241 0 0 01003C\\0A04"),
    ] {
        assert!(rooms.contains(&room), "{rooms:?}");
        let answer = answered(&request(room, longest.as_bytes()));
        assert!(answer.starts_with(wanted), "{answer}");
    }
}

/// Plans in a buffer of no bytes, of one too few, of just enough, and larger.
#[test]
fn the_suite_asks_all_rooms() {
    let mut rooms: BTreeMap<&str, u64> = BTreeMap::new();
    for (room, sheet) in requests(1, 0).filter_map(|request| compiled(&request)) {
        let length = compile(&sheet, usize::MAX).0.length as usize;
        if length > 0 {
            let sort = match room {
                0 => "none",
                room if room + 1 == length => "one too few",
                room if room < length => "too few",
                room if room == length => "just enough",
                _ => "more",
            };
            *rooms.entry(sort).or_default() += 1;
        }
    }
    assert_eq!(rooms.len(), 5);
    assert!(rooms.values().all(|&asked| asked >= 200), "{rooms:?}");
}

/// The outcome for a driver that answers as the reference does, but for what `sed` makes of it.
fn tally(asked: &[String], script: &str) -> Tally {
    let line = format!("'{BINARY}' answer | sed -E '{script}'");
    let words = ["sh", "-c", line.as_str()].map(str::to_string);
    compare(&words, PATIENCE, asked.iter().cloned())
}

/// As the driver would say it: a compiler that refuses all, one that writes one fixed plan, nothing, a byte after the plan, or
/// something before it refuses; one without COUNT; one that does not show the bad line; and searches that are wrong.
#[test]
fn wrong_drivers_are_caught() {
    let asked: Vec<String> = requests(1, 0).step_by(29).collect();
    assert!(tally(&asked, "").is_good());
    for script in [
        r"s/^0 0 [0-9]+ 0 0 .*0A$/3 1 0 0 0 -/",
        r"s/^0 0 [0-9]+ 0 0 .*0A$/0 0 12 0 0 01003C\\0AFF01\\0A/",
        r"s/^(0 0 [0-9]+ 0 0 ).*0A$/\1Zahov}/",
        r"s/0A$/&; byte 85 of the buffer changed/",
        r"s/^9 .*/&; byte 0 of the buffer changed/",
        r"s/^[2-8] .*/&; byte 0 of the buffer changed/",
        r"s/(A04[0-9A-F]{14})[0-9A-F]{8}/\103228D1F/g",
        r"s/^([2-8] [0-9]+ 0) [1-9][0-9]* [0-9]+/\1 0 0/",
        r"s/,0 0 [0-9]+$/,11 0 0/",
        r"s/^(0 0 -?[0-9]+),0 0 -?[0-9]+/\1,\1/",
    ] {
        let tally = tally(&asked, script);
        assert!(tally.differ >= 5, "{script}: {}", tally.differ);
        assert!(tally.compared > 1_000);
    }
}
