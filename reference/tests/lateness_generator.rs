//! What the generated days of pairs reach.

use reference::lateness::generate::{day, MARKED};
use reference::lateness::{read_lines, read_pair, report_of, Pair, Refusal, MOST_PAIRS};
use std::collections::BTreeMap;

const DAYS: u64 = 500;

fn days() -> impl Iterator<Item = (Vec<u8>, Vec<Vec<u8>>)> {
    (1..=DAYS).map(|seed| {
        let bytes = day(seed);
        let lines = read_lines(&bytes[..]).unwrap();
        (bytes, lines)
    })
}

#[test]
fn same_seed_same_day() {
    assert_eq!(day(5), day(5));
    assert_ne!(day(5), day(6));
}

fn no_pair(line: &[u8]) -> bool {
    read_pair(line).is_none()
}

fn door_above_2(line: &[u8]) -> bool {
    read_pair(line).is_some_and(|pair| pair.door > 2)
}

/// The answer, and which of the lower refusals it stands before.
fn kind(lines: &[Vec<u8>]) -> (u8, bool, bool) {
    let ten = lines.iter().any(|line| no_pair(line));
    let seven = lines.iter().any(|line| door_above_2(line));
    match report_of(lines) {
        Ok(_) => (0, false, false),
        Err(Refusal::MoreLines) => (15, ten, seven),
        Err(Refusal::NoPair(_)) => (10, false, seven),
        Err(Refusal::DoorAbove2(_)) => (7, false, false),
    }
}

/// Each answer, and each refusal together with those that come after it.
#[test]
fn days_meet_every_answer() {
    let mut kinds = BTreeMap::new();
    for (_, lines) in days() {
        *kinds.entry(kind(&lines)).or_insert(0) += 1;
    }
    println!("{kinds:?}");
    for (kind, least) in [
        ((0, false, false), 120),
        ((7, false, false), 20),
        ((10, false, false), 20),
        ((10, false, true), 10),
        ((15, false, false), 5),
        ((15, true, false), 1),
        ((15, false, true), 1),
        ((15, true, true), 1),
    ] {
        assert!(kinds.get(&kind) >= Some(&least), "{kind:?}: {kinds:?}");
    }
}

/// The first line that is refused is not always the only one, nor the first of all.
#[test]
fn refused_lines_stand_anywhere() {
    let mut places = [0; 3];
    for (_, lines) in days() {
        let number = match report_of(&lines) {
            Err(Refusal::NoPair(number) | Refusal::DoorAbove2(number)) => number,
            _ => continue,
        };
        let place = [1, lines.len()].iter().position(|&end| end == number);
        places[place.unwrap_or(2)] += 1;
    }
    assert!(places.iter().all(|&many| many > 10), "{places:?}");
}

#[test]
fn days_of_every_length() {
    let (mut empty, mut endless, mut lengths) = (0, 0, BTreeMap::new());
    for (bytes, lines) in days() {
        empty += usize::from(bytes.is_empty());
        endless += usize::from(bytes.last().is_some_and(|&byte| byte != b'\n'));
        *lengths.entry(lines.len().max(MOST_PAIRS - 1)).or_insert(0) += 1;
    }
    assert!(empty > 5, "{empty}");
    assert!((DAYS / 5..DAYS / 2).contains(&endless.try_into().unwrap()));
    for length in MOST_PAIRS..=MOST_PAIRS + 1 {
        assert!(lengths.get(&length) > Some(&3), "{lengths:?}");
    }
    assert!(lengths.keys().any(|&length| length > MOST_PAIRS + 1));
}

/// Days that are reported meet every marked lateness, and the turn of the clock.
#[test]
fn days_of_every_lateness() {
    let reported = days().filter(|(_, lines)| report_of(lines).is_ok());
    let pairs: Vec<Pair> = reported
        .flat_map(|(_, lines)| lines)
        .map(|line| read_pair(&line).unwrap())
        .collect();
    for ticks in MARKED {
        let many = pairs.iter().filter(|pair| pair.lateness() == ticks);
        assert!(many.count() > 100, "{ticks}");
    }
    let usual = pairs.iter().filter(|pair| pair.lateness().abs() < 61);
    let (late, early): (Vec<&Pair>, Vec<&Pair>) = usual.partition(|pair| pair.lateness() > 0);
    assert!(late.iter().any(|pair| pair.acting < pair.due));
    assert!(early.iter().any(|pair| pair.acting > pair.due));
    for door in 0..=2 {
        assert!(pairs.iter().any(|pair| pair.door == door));
    }
}

#[test]
fn lines_damaged_in_every_way() {
    let lines: Vec<Vec<u8>> = days().flat_map(|(_, lines)| lines).collect();
    let damaged: Vec<&[u8]> = lines.iter().map(|line| &line[..]).collect();
    let any = |test: &dyn Fn(&[u8]) -> bool| damaged.iter().any(|line| no_pair(line) && test(line));
    assert!(any(&|line| line.is_empty()));
    assert!(any(&|line| line.len() > 30_000));
    assert!(any(&|line| line.len() == 19 && line.ends_with(b"\r")));
    assert!(any(&|line| line.len() == 19 && line.ends_with(b"\0")));
    assert!(any(&|line| line.len() == 18 && line.contains(&0)));
    let small = |line: &[u8]| line.len() == 18 && line.iter().any(u8::is_ascii_lowercase);
    assert!(any(&small));
    for length in [9, 16, 17, 19, 20, 36] {
        let digits = |line: &[u8]| line.iter().all(u8::is_ascii_hexdigit);
        assert!(any(&|line| line.len() == length && digits(line)));
    }
    assert!(any(&|line| std::str::from_utf8(line).is_err()));
    assert!(lines.iter().any(|line| door_above_2(line)));
}
