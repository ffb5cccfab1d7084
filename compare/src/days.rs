//! Days of pairs of every kind, for a report of lateness.

use reference::lateness::generate::{door_above_2, some_pairs};
use reference::lateness::{report, Pair, MOST_PAIRS};
use reference::rng::Rng;

/// Six numbers for each of three doors.
pub const REPORT: usize = 18;

/// The most numbers of a lent report.
pub const MOST_NUMBERS: usize = 40;

/// What is lent, as it is before the call.
#[derive(Clone, Debug, PartialEq, Eq)]
pub struct Day {
    pub due: Vec<u32>,
    pub acting: Vec<u32>,
    pub doors: Vec<u8>,
    /// The numbers that the lent report has room for.
    pub report: usize,
}

/// What is wrong with what is lent, if anything is.
#[derive(Clone, Copy, Debug, PartialEq, Eq)]
enum Lending {
    Right,
    Unequal,
    Short,
}

/// A day's number of pairs, whether a door is above 2, and what is wrong besides.
type Shape = (usize, bool, Lending);

/// One day in so many is large.
const LARGE_IN: usize = 25;

/// Large days in turn: at the most pairs, beside it, and more.
const LARGE: [Shape; 9] = [
    (MOST_PAIRS, false, Lending::Right),
    (MOST_PAIRS + 1, false, Lending::Right),
    (MOST_PAIRS + 1, true, Lending::Right),
    (MOST_PAIRS - 1, false, Lending::Right),
    (MOST_PAIRS, true, Lending::Right),
    (MOST_PAIRS + 1, true, Lending::Unequal),
    (MOST_PAIRS, false, Lending::Right),
    (6_000, true, Lending::Right),
    (MOST_PAIRS + 2, true, Lending::Short),
];

impl Day {
    /// The pairs, if there are as many of each.
    pub fn pairs(&self) -> Option<Vec<Pair>> {
        let equal = [self.due.len(), self.acting.len()] == [self.doors.len(); 2];
        let ticks = self.due.iter().zip(&self.acting);
        let pair = |((&due, &acting), &door)| Pair { due, acting, door };
        equal.then(|| ticks.zip(&self.doors).map(pair).collect())
    }

    /// The answer, and the numbers to be found at the beginning of the report.
    pub fn wanted(&self) -> (u8, Vec<i64>) {
        let Some(pairs) = self.pairs().filter(|_| self.report >= REPORT) else {
            return (10, Vec::new());
        };
        match report(&pairs) {
            Ok(rows) => (0, rows.iter().flat_map(|row| row.numbers()).collect()),
            Err(answer) => (answer, vec![0; REPORT]),
        }
    }
}

/// The day of this number: the large ones in turn, all else by chance.
pub fn some_day(rng: &mut Rng, number: usize) -> Day {
    let (many, above, lending) = if number % LARGE_IN == LARGE_IN - 1 {
        LARGE[number / LARGE_IN % LARGE.len()]
    } else {
        small(rng)
    };
    let pairs = some_pairs(rng, many);
    let mut day = Day {
        due: pairs.iter().map(|pair| pair.due).collect(),
        acting: pairs.iter().map(|pair| pair.acting).collect(),
        doors: pairs.iter().map(|pair| pair.door).collect(),
        report: some_room(rng, lending == Lending::Short),
    };
    if above {
        raise_doors(rng, &mut day.doors);
    }
    if lending == Lending::Unequal {
        make_unequal(rng, &mut day);
    }
    day
}

fn small(rng: &mut Rng) -> Shape {
    let many = match rng.below(40) {
        0 | 1 => 0,
        2 | 3 => 1,
        4 => 41 + rng.size(900),
        _ => 2 + rng.size(39),
    };
    let lending = match rng.below(20) {
        0 => Lending::Unequal,
        1 => Lending::Short,
        _ => Lending::Right,
    };
    (many, rng.one_in(8), lending)
}

/// Numbers of a report, with room for all or not.
fn some_room(rng: &mut Rng, short: bool) -> usize {
    let any = rng.size(REPORT);
    if short {
        [0, REPORT - 1, REPORT - 1, any][rng.size(4)]
    } else {
        [REPORT, REPORT, REPORT + 1, MOST_NUMBERS, REPORT + any][rng.size(5)]
    }
}

/// One door above 2 at any place, often the first or last; sometimes more.
fn raise_doors(rng: &mut Rng, doors: &mut [u8]) {
    let Some(last) = doors.len().checked_sub(1) else {
        return;
    };
    for _ in 0..[1, 1, 1, 2, 10][rng.size(5)] {
        let any = rng.size(doors.len());
        doors[[0, last, any, any][rng.size(4)]] = door_above_2(rng);
    }
}

/// One count is another than the other two, or all three differ.
fn make_unequal(rng: &mut Rng, day: &mut Day) {
    let many = day.doors.len();
    let fewer = [0, many.saturating_sub(1), many / 2][rng.size(3)];
    let more = many + 1 + rng.size(3);
    let other = if many == 0 || rng.one_in(2) {
        more
    } else {
        fewer
    };
    match rng.below(4) {
        0 => day.due.resize(other, 7),
        1 => day.acting.resize(other, 7),
        2 => day.doors.resize(other, 1),
        _ => {
            day.due.resize(other, 7);
            day.doors.resize(many + 4, 1);
        }
    }
}
