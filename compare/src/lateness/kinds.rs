//! What days of pairs are there for, and whether it was met.

use crate::days::{Day, REPORT};
use crate::tally::Tally;
use reference::lateness::{Pair, MOST_PAIRS};

/// A kind of days with their answers, and whether a day is of it.
type DayKind = (&'static str, fn(&Day, u8) -> bool);

const DAYS: [DayKind; 25] = [
    ("answered 0", |_, answer| answer == 0),
    ("answered 0, no pairs", |day, answer| {
        answer == 0 && day.doors.is_empty()
    }),
    ("answered 0, 4096 pairs", |day, answer| {
        answer == 0 && day.doors.len() == MOST_PAIRS
    }),
    ("answered 0, all pairs both", |day, answer| {
        answer == 0 && all_in(day, 0)
    }),
    ("answered 0, all pairs left", |day, answer| {
        answer == 0 && all_in(day, 1)
    }),
    ("answered 0, all pairs right", |day, answer| {
        answer == 0 && all_in(day, 2)
    }),
    ("answered 0, all three doors", |day, answer| {
        answer == 0 && (0..=2).all(|door| day.doors.contains(&door))
    }),
    ("answered 0, the two in the middle differ", |day, answer| {
        answer == 0 && middle_differs(day)
    }),
    ("answered 0, room for more", |day, answer| {
        answer == 0 && day.report > REPORT
    }),
    ("answered 10", |_, answer| answer == 10),
    ("answered 10, only due ticks unequal", |day, _| {
        day.due.len() != day.doors.len() && day.acting.len() == day.doors.len()
    }),
    ("answered 10, only acting ticks unequal", |day, _| {
        day.acting.len() != day.doors.len() && day.due.len() == day.doors.len()
    }),
    ("answered 10, only doors unequal", |day, _| {
        day.doors.len() != day.due.len() && day.due.len() == day.acting.len()
    }),
    ("answered 10, no room", |day, _| {
        day.pairs().is_some() && day.report == 0
    }),
    ("answered 10, room for 17", |day, _| {
        day.pairs().is_some() && day.report == REPORT - 1
    }),
    ("answered 10, unequal and too many pairs", |day, _| {
        day.pairs().is_none() && most(day) > MOST_PAIRS
    }),
    ("answered 10, no room and too many pairs", |day, _| {
        day.report < REPORT && most(day) > MOST_PAIRS
    }),
    ("answered 10, a door above 2", |day, answer| {
        answer == 10 && above_2(day)
    }),
    ("answered 15", |_, answer| answer == 15),
    ("answered 15, 4097 pairs", |day, answer| {
        answer == 15 && !above_2(day) && day.doors.len() == MOST_PAIRS + 1
    }),
    ("answered 15, a door above 2", |day, answer| {
        answer == 15 && above_2(day)
    }),
    ("answered 7", |_, answer| answer == 7),
    ("answered 7, 4096 pairs", |day, answer| {
        answer == 7 && day.doors.len() == MOST_PAIRS
    }),
    ("answered 7, for door 3 alone", |day, answer| {
        answer == 7 && day.doors.iter().all(|&door| door <= 3)
    }),
    ("answered 7 or 15, room for more", |day, answer| {
        [7, 15].contains(&answer) && day.report > REPORT
    }),
];

const HALF: i64 = 1 << 31;

/// A kind of pairs that are reported.
type PairKind = (&'static str, fn(&Pair) -> bool);

const PAIRS: [PairKind; 8] = [
    ("pairs exact", |pair| pair.lateness() == 0),
    ("pairs early by half the clock", |pair| {
        pair.lateness() == -HALF
    }),
    ("pairs early by one tick less", |pair| {
        pair.lateness() == 1 - HALF
    }),
    ("pairs late by one tick less", |pair| {
        pair.lateness() == HALF - 1
    }),
    ("pairs early by 1", |pair| pair.lateness() == -1),
    ("pairs late by 1", |pair| pair.lateness() == 1),
    ("pairs early around the turn", |pair| {
        pair.lateness() < 0 && pair.acting > pair.due
    }),
    ("pairs late around the turn", |pair| {
        pair.lateness() > 0 && pair.acting < pair.due
    }),
];

fn all_in(day: &Day, door: u8) -> bool {
    day.doors.len() > 1 && day.doors.iter().all(|&other| other == door)
}

fn above_2(day: &Day) -> bool {
    day.doors.iter().any(|&door| door > 2)
}

fn most(day: &Day) -> usize {
    day.due.len().max(day.acting.len()).max(day.doors.len())
}

/// Whether the lower median of a row is another than the upper one.
fn middle_differs(day: &Day) -> bool {
    let pairs = day.pairs().unwrap_or_default();
    (0..=2).any(|door| {
        let of_door = pairs.iter().filter(|pair| pair.door == door);
        let mut late: Vec<i64> = of_door.map(Pair::lateness).collect();
        late.sort_unstable();
        let middle = late.len() / 2;
        late.len().is_multiple_of(2) && middle > 0 && late[middle - 1] < late[middle]
    })
}

/// Every kind is to be met.
pub fn expect(tally: &mut Tally) {
    DAYS.iter().for_each(|kind| tally.add_met(kind.0, 0));
    PAIRS.iter().for_each(|kind| tally.add_met(kind.0, 0));
}

pub fn count(day: &Day, answer: u8, tally: &mut Tally) {
    tally.add_day();
    for (kind, test) in DAYS {
        tally.add_met(kind, usize::from(test(day, answer)));
    }
    let reported = day.pairs().filter(|_| answer == 0).unwrap_or_default();
    for (kind, test) in PAIRS {
        tally.add_met(kind, reported.iter().filter(|&pair| test(pair)).count());
    }
}
