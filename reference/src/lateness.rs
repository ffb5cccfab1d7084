//! R-6 of document 02: how early or late the doors acted, in whole ticks.
//!
//! Quotes are from R-6 where no other place is named.

pub mod generate;

use crate::frames::bytes_of;
use std::fmt::{self, Display, Formatter};
use std::io::{self, BufRead};

/// "Box clocks count on past the top of 32 bits"; after so many ticks it is 0 again.
const CLOCK: i64 = 1 << 32;

/// "At most 4,096 pairs a day".
pub const MOST_PAIRS: usize = 4_096;

/// Document 01: "door, 0 both, 1 left, 2 right".
const NAMES: [&str; 3] = ["both", "left", "right"];

/// "pairs of due and acting tick, each with a door byte".
#[derive(Clone, Copy, Debug, PartialEq, Eq)]
pub struct Pair {
    pub due: u32,
    pub acting: u32,
    pub door: u8,
}

impl Pair {
    /// "Lateness is signed, early is below zero, taken around the turning clock from
    /// -2,147,483,648 to 2,147,483,647, and a distance of exactly half the clock counts
    /// as early."
    pub fn lateness(&self) -> i64 {
        let distance = (i64::from(self.acting) - i64::from(self.due)).rem_euclid(CLOCK);
        if distance < CLOCK / 2 {
            distance
        } else {
            distance - CLOCK
        }
    }

    fn door_known(&self) -> bool {
        usize::from(self.door) < NAMES.len()
    }
}

/// "the count, earliest, latest and sum of lateness, the count of exact hits and the
/// lower median".
#[derive(Clone, Copy, Debug, Default, PartialEq, Eq)]
pub struct Row {
    pub count: i64,
    pub earliest: i64,
    pub latest: i64,
    pub sum: i64,
    pub exact: i64,
    pub median: i64,
}

impl Row {
    /// "A door without pairs prints zeros."
    pub fn of(mut lateness: Vec<i64>) -> Row {
        lateness.sort_unstable();
        let (Some(&earliest), Some(&latest)) = (lateness.first(), lateness.last()) else {
            return Row::default();
        };
        let exact = lateness.iter().filter(|&&ticks| ticks == 0);
        Row {
            count: lateness.len() as i64,
            earliest,
            latest,
            sum: lateness.iter().sum(),
            exact: exact.count() as i64,
            median: lateness[(lateness.len() - 1) / 2],
        }
    }

    /// In the order of the sentence.
    pub fn numbers(&self) -> [i64; 6] {
        let Row {
            count,
            earliest,
            latest,
            sum,
            exact,
            median,
        } = *self;
        [count, earliest, latest, sum, exact, median]
    }
}

/// "a report gives for each byte": both, left and right.
pub type Report = [Row; 3];

/// "Refusals: 15 for more pairs, 7 for a door above 2, 15 first."
pub fn report(pairs: &[Pair]) -> Result<Report, u8> {
    if pairs.len() > MOST_PAIRS {
        return Err(15);
    }
    if !pairs.iter().all(Pair::door_known) {
        return Err(7);
    }
    Ok([0, 1, 2].map(|door| {
        let of_door = pairs.iter().filter(|pair| pair.door == door);
        Row::of(of_door.map(Pair::lateness).collect())
    }))
}

/// One line a door; "the mean is printed as sum and count".
pub fn text(report: &Report) -> String {
    let rows = NAMES.iter().zip(report);
    rows.map(|(name, row)| line(name, row)).collect()
}

fn line(name: &str, row: &Row) -> String {
    let [count, earliest, latest, sum, exact, median] = row.numbers();
    format!("{name:5}  count {count}  earliest {earliest}  latest {latest}  sum {sum}  exact {exact}  median {median}  mean {sum}/{count}\n")
}

/// Why a day of lines has no report; lines are counted from 1.
#[derive(Clone, Copy, Debug, PartialEq, Eq)]
pub enum Refusal {
    MoreLines,
    NoPair(usize),
    DoorAbove2(usize),
}

impl Display for Refusal {
    fn fmt(&self, out: &mut Formatter) -> fmt::Result {
        match self {
            Refusal::MoreLines => write!(out, "refused 15: more than {MOST_PAIRS} lines"),
            Refusal::NoPair(line) => write!(out, "refused 10: line {line} is no pair"),
            Refusal::DoorAbove2(line) => write!(out, "refused 7: line {line} has a door above 2"),
        }
    }
}

/// Due (8 digits), acting (8) and door (2) in capital hexadecimal, and nothing else.
pub fn read_pair(line: &[u8]) -> Option<Pair> {
    let bytes: [u8; 9] = bytes_of(line)?.try_into().ok()?;
    let tick = |at: usize| bytes[at..at + 4].iter().fold(0, high_first);
    Some(Pair {
        due: tick(0),
        acting: tick(4),
        door: bytes[8],
    })
}

/// Document 01: "high byte first".
fn high_first(above: u32, &byte: &u8) -> u32 {
    above << 8 | u32::from(byte)
}

pub fn write_pair(pair: &Pair) -> String {
    let Pair { due, acting, door } = pair;
    format!("{due:08X}{acting:08X}{door:02X}")
}

/// Document 01: "line end 0A; a last line without it counts if it has at least one byte."
pub fn read_lines(mut input: impl BufRead) -> io::Result<Vec<Vec<u8>>> {
    let mut lines = Vec::new();
    loop {
        let mut line = Vec::new();
        if input.read_until(b'\n', &mut line)? == 0 {
            return Ok(lines);
        }
        if line.last() == Some(&b'\n') {
            line.pop();
        }
        lines.push(line);
    }
}

/// The report of a day of lines: 15, then 10, then 7, each for the first line it fits.
pub fn report_of(lines: &[Vec<u8>]) -> Result<Report, Refusal> {
    if lines.len() > MOST_PAIRS {
        return Err(Refusal::MoreLines);
    }
    let mut pairs = Vec::new();
    for (number, line) in (1..).zip(lines) {
        pairs.push(read_pair(line).ok_or(Refusal::NoPair(number))?);
    }
    report(&pairs).map_err(|_| {
        let before = pairs.iter().take_while(|pair| pair.door_known());
        Refusal::DoorAbove2(before.count() + 1)
    })
}
