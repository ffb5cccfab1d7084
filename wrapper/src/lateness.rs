//! How punctual the doors were, in whole ticks.

use crate::answers::{settle, Result};
use crate::c;

/// At most so many pairs a day.
pub const MOST_PAIRS: usize = 4096;

/// One door's lateness: below 0 is early. All zeros where the door has no pairs.
#[derive(Clone, Copy, Debug, Default, PartialEq, Eq)]
pub struct Lateness {
    /// How many pairs there are. The mean is `sum` and `count`.
    pub count: u64,
    pub earliest: i64,
    pub latest: i64,
    pub sum: i64,
    /// How many are neither early nor late.
    pub exact: u64,
    /// The lower median: of n in order, number (n + 1) / 2 rounded down, counted from 1.
    pub median: i64,
}

/// A day's lateness for each door byte; `both` does not add to left and right.
#[derive(Clone, Copy, Debug, Default, PartialEq, Eq)]
pub struct Report {
    pub both: Lateness,
    pub left: Lateness,
    pub right: Lateness,
}

const NUMBERS: usize = 6;

impl Report {
    /// Reports on pairs: the tick that an order was due at, the tick that its door acted at, and its door byte stand at
    /// the same place of three slices. Lateness is taken around the clock, and exactly half the clock is early. Refused
    /// are, in this order, slices of different lengths ([`NotAFrame`](crate::Refusal::NotAFrame)), more than 4,096 pairs,
    /// and a door above 2.
    ///
    /// ```
    /// use gorgalhut::Report;
    ///
    /// let due = [100, 200, u32::MAX, 400];
    /// let acting = [107, 188, 39, 400];
    /// let report = Report::of(&due, &acting, &[1, 1, 1, 2])?;
    /// assert_eq!((report.left.earliest, report.left.median, report.left.latest), (-12, 7, 40));
    /// assert_eq!((report.left.sum, report.left.count), (35, 3));
    /// assert_eq!((report.right.exact, report.both.count), (1, 0));
    /// # Ok::<(), gorgalhut::Refusal>(())
    /// ```
    pub fn of(due: &[u32], acting: &[u32], doors: &[u8]) -> Result<Report> {
        let mut report = [[0; NUMBERS]; 3];
        // SAFETY: pointers and lengths are slices', and the numbers are our own.
        settle(unsafe {
            c::gorgalhut_lateness(
                due.as_ptr(),
                due.len(),
                acting.as_ptr(),
                acting.len(),
                doors.as_ptr(),
                doors.len(),
                report.as_mut_ptr().cast(),
                report.len() * NUMBERS,
            )
        })?;
        let [both, left, right] = report.map(lateness_of);
        Ok(Report { both, left, right })
    }
}

fn lateness_of([count, earliest, latest, sum, exact, median]: [i64; NUMBERS]) -> Lateness {
    Lateness {
        count: count.unsigned_abs(),
        earliest,
        latest,
        sum,
        exact: exact.unsigned_abs(),
        median,
    }
}
