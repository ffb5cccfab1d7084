//! Seeded random days: pairs of every kind, and lines that are pairs or nearly so.

use super::{write_pair, Pair, CLOCK, MOST_PAIRS};
use crate::rng::Rng;

/// Exact, one tick beside it, half the clock, and one tick beside that: both ends.
pub const MARKED: [i64; 6] = [0, 1, -1, -CLOCK / 2, CLOCK / 2 - 1, 1 - CLOCK / 2];

/// How punctual a day is.
#[derive(Clone, Copy, Debug)]
enum Manner {
    /// A few ticks early or late, and exact hits.
    Usual,
    /// Two different ones, or all equal.
    Equal,
    Marked,
    Any,
}

const MANNERS: [Manner; 7] = [
    Manner::Usual,
    Manner::Usual,
    Manner::Usual,
    Manner::Equal,
    Manner::Marked,
    Manner::Marked,
    Manner::Any,
];

impl Manner {
    fn some(rng: &mut Rng) -> Manner {
        MANNERS[rng.size(MANNERS.len())]
    }

    fn lateness(self, rng: &mut Rng) -> i64 {
        match self {
            Manner::Usual if rng.one_in(4) => 0,
            Manner::Usual => rng.below(101) as i64 - 40,
            Manner::Equal | Manner::Marked => MARKED[rng.size(MARKED.len())],
            Manner::Any => rng.below(CLOCK as u64) as i64 - CLOCK / 2,
        }
    }
}

/// So many pairs, every door 0, 1 or 2.
pub fn some_pairs(rng: &mut Rng, many: usize) -> Vec<Pair> {
    let manner = Manner::some(rng);
    let another = Manner::some(rng);
    let equal = [manner.lateness(rng), another.lateness(rng)];
    let doors = some_doors(rng);
    let mut due = some_start(rng);
    let mut pairs = Vec::new();
    for _ in 0..many {
        let lateness = match manner {
            Manner::Equal => equal[rng.size(2)],
            // Now and then a day has a pair of another manner.
            _ if rng.one_in(20) => another.lateness(rng),
            _ => manner.lateness(rng),
        };
        due = (due + rng.below(200) as i64).rem_euclid(CLOCK);
        pairs.push(Pair {
            due: due as u32,
            acting: (due + lateness).rem_euclid(CLOCK) as u32,
            door: doors[rng.size(3)],
        });
    }
    pairs
}

/// All in one door, in two, or mixed.
fn some_doors(rng: &mut Rng) -> [u8; 3] {
    let one = rng.below(3) as u8;
    match rng.below(4) {
        0 => [one; 3],
        1 => [one, one, (one + 1) % 3],
        _ => [0, 1, 2],
    }
}

/// Often just before the clock turns, or before half of it.
fn some_start(rng: &mut Rng) -> i64 {
    let before = rng.below(2_000) as i64;
    match rng.below(4) {
        0 => CLOCK - 1 - before,
        1 => CLOCK / 2 - before,
        2 => 0,
        _ => rng.below(CLOCK as u64) as i64,
    }
}

/// At the most pairs, one beside it, or more.
pub fn many_pairs(rng: &mut Rng) -> usize {
    match rng.below(4) {
        0 => MOST_PAIRS - 1,
        1 => MOST_PAIRS,
        2 => MOST_PAIRS + 1,
        _ => MOST_PAIRS + 2 + rng.size(2_000),
    }
}

/// A door byte above 2, often the next one.
pub fn door_above_2(rng: &mut Rng) -> u8 {
    let any = 3 + rng.below(253) as u8;
    [3, 3, 0x10, 0xFF, any][rng.size(5)]
}

/// A whole day of lines as bytes, by its seed: two in three have a fault, or more.
pub fn day(seed: u64) -> Vec<u8> {
    let mut rng = Rng::new(seed);
    let many = some_many(&mut rng);
    let mut pairs = some_pairs(&mut rng, many);
    let faults = [0, 0, 1, 1, 1, 4][rng.size(6)];
    let kinds = rng.below(3);
    // Doors come first, so that a line may have both faults.
    for _ in 0..if kinds == 0 { 0 } else { faults } {
        if let Some(at) = some_place(&mut rng, pairs.len()) {
            pairs[at].door = door_above_2(&mut rng);
        }
    }
    let mut lines: Vec<Vec<u8>> = pairs.iter().map(|p| write_pair(p).into()).collect();
    for _ in 0..if kinds == 1 { 0 } else { faults } {
        damage(&mut rng, &mut lines);
    }
    with_ends(&mut rng, &lines)
}

fn some_many(rng: &mut Rng) -> usize {
    match rng.below(20) {
        0 => 0,
        1 => 1,
        2..=14 => 2 + rng.size(39),
        15 | 16 => rng.size(1_000),
        _ => many_pairs(rng),
    }
}

/// A place in a list, often its first or last.
fn some_place(rng: &mut Rng, many: usize) -> Option<usize> {
    let last = many.checked_sub(1)?;
    let any = rng.size(many);
    Some([0, last, any, any][rng.size(4)])
}

/// Each line with its end, the last one mostly.
fn with_ends(rng: &mut Rng, lines: &[Vec<u8>]) -> Vec<u8> {
    let carriage_returns = rng.one_in(40);
    let mut bytes = Vec::new();
    for line in lines {
        bytes.extend_from_slice(line);
        bytes.extend_from_slice(if carriage_returns { b"\r\n" } else { b"\n" });
    }
    if rng.one_in(3) {
        bytes.pop();
    }
    bytes
}

/// Makes one line no pair, or puts such a line beside it.
fn damage(rng: &mut Rng, lines: &mut Vec<Vec<u8>>) {
    let Some(at) = some_place(rng, lines.len()) else {
        return lines.push(Vec::new());
    };
    match rng.below(8) {
        0 => lines.insert(at, Vec::new()),
        1 => lines.push(Vec::new()),
        // A line end too many.
        2 => {
            let cut = lines[at].len() / 2;
            let behind = lines[at].split_off(cut);
            lines.insert(at + 1, behind);
        }
        // A line end too few.
        3 if at > 0 => {
            let line = lines.remove(at);
            lines[at - 1].extend(line);
        }
        _ => damage_line(rng, &mut lines[at]),
    }
}

fn damage_line(rng: &mut Rng, line: &mut Vec<u8>) {
    let at = rng.size(line.len().max(1));
    match rng.below(17) {
        0 | 1 if !line.is_empty() => line[at] = b"abcdef"[rng.size(6)],
        // A digit that is none, beside the good ones in the code table or far off.
        2..=4 if !line.is_empty() => line[at] = b"/:@Gg`- ~\0\x80\xFF"[rng.size(12)],
        // A digit or a byte too few.
        5 => drop(line.pop()),
        6 if !line.is_empty() => drop(line.remove(at)),
        7 => line.truncate(line.len().saturating_sub(2)),
        // The same too many.
        8 => line.insert(at.min(line.len()), b'0'),
        9 => line.extend_from_slice(b"00"),
        10 => line.insert(0, b' '),
        11 => line.push(b' '),
        12 => line.push(b'\r'),
        13 => line.push(0),
        14 if !line.is_empty() => line[at] = 0,
        15 => *line = some_bytes(rng, 40),
        _ => *line = long_line(rng),
    }
}

/// Any bytes but the line end.
fn some_bytes(rng: &mut Rng, limit: usize) -> Vec<u8> {
    let length = rng.size(limit);
    let bytes = (0..length).map(|_| rng.word() as u8);
    bytes.filter(|&byte| byte != b'\n').collect()
}

/// Many thousand bytes: pairs without their ends, or anything.
fn long_line(rng: &mut Rng) -> Vec<u8> {
    let length = 2_000 + rng.size(40_000);
    match rng.below(3) {
        0 => vec![b'0'; length],
        1 => b"0000000A0000000B01".repeat(length / 18),
        _ => some_bytes(rng, length),
    }
}
