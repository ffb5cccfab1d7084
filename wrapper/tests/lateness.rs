//! How punctual the doors were, through the static library.

use gorgalhut::{Lateness, Refusal, Report, Tally, MOST_PAIRS};

const HALF: u32 = 1 << 31;

/// The lateness of one pair at the left door, and nothing at the others.
fn left(due: u32, acting: u32) -> i64 {
    let report = Report::of(&[due], &[acting], &[1]).unwrap();
    let late = report.left.sum;
    let exact = u64::from(late == 0);
    let alone = Lateness {
        count: 1,
        earliest: late,
        latest: late,
        sum: late,
        exact,
        median: late,
    };
    assert_eq!(
        report,
        Report {
            left: alone,
            ..Report::default()
        }
    );
    late
}

#[test]
fn zero_half_the_clock_and_both_ends() {
    assert_eq!(left(7, 7), 0);
    assert_eq!(left(7, 8), 1);
    assert_eq!(left(7, 6), -1);
    assert_eq!(left(u32::MAX, 0), 1);
    assert_eq!(left(0, u32::MAX), -1);
    assert_eq!(left(7, 7 + HALF - 1), i64::from(i32::MAX));
    assert_eq!(left(7, 7 + HALF), i64::from(i32::MIN));
    assert_eq!(left(7 + HALF, 7), i64::from(i32::MIN));
    assert_eq!(left(7, 7 + HALF + 1), i64::from(i32::MIN) + 1);
}

#[test]
fn the_lower_median_of_an_even_number() {
    let report = Report::of(&[10, 10, 10, 10], &[14, 9, 12, 11], &[2; 4]).unwrap();
    let right = Lateness {
        count: 4,
        earliest: -1,
        latest: 4,
        sum: 6,
        exact: 0,
        median: 1,
    };
    assert_eq!(
        report,
        Report {
            right,
            ..Report::default()
        }
    );
}

#[test]
fn no_pairs_are_zeros() {
    assert_eq!(Report::of(&[], &[], &[]), Ok(Report::default()));
}

#[test]
fn refusals_in_their_order() {
    let ticks = [0; MOST_PAIRS + 1];
    let doors = [3; MOST_PAIRS + 1];
    assert_eq!(
        Report::of(&ticks, &ticks, &doors),
        Err(Refusal::TooManyPairs)
    );
    assert_eq!(
        Report::of(&ticks[1..], &ticks[1..], &doors[1..]),
        Err(Refusal::DoorAbove)
    );
    assert_eq!(
        Report::of(&ticks, &ticks, &doors[1..]),
        Err(Refusal::NotAFrame)
    );
    assert_eq!(
        Report::of(&ticks, &ticks[1..], &doors),
        Err(Refusal::NotAFrame)
    );
    assert_eq!(Refusal::of_number(15), Some(Refusal::TooManyPairs));
}

#[test]
fn the_tally_is_of_the_queue() {
    let mut tally = Tally::new();
    tally.add_insert(&Err(Refusal::TooManyPairs));
    assert_eq!(tally, Tally::new());
}
