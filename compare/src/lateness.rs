//! The report of how early or late the doors were, beside the independent program's.

mod kinds;

use crate::days::{some_day, Day, MOST_NUMBERS};
use crate::lent::{Lent, Unit};
use crate::library::lateness::{lateness, Lateness};
use crate::options::Options;
use crate::show;
use crate::tally::Tally;
use reference::rng::Rng;
use std::fmt::Display;

pub fn compare(options: &Options, tally: &mut Tally) -> Result<(), String> {
    let mut rng = Rng::new(options.seed);
    let mut memory = Memory::new(options.exact);
    kinds::expect(tally);
    for number in 0..options.calls {
        let day = some_day(&mut rng, number);
        let (answer, numbers) = day.wanted();
        memory
            .compare_day(&day, answer, &numbers)
            .map_err(|difference| format!("day {number}, {}: {difference}", show::day(&day)))?;
        kinds::count(&day, answer, tally);
    }
    Ok(())
}

/// What is lent, and any numbers that stand in the report before a call.
struct Memory {
    lent: Lateness,
    before: Vec<i64>,
}

impl Memory {
    fn new(exact: bool) -> Memory {
        let mut rng = Rng::new(0);
        Memory {
            lent: Lateness {
                due: Lent::new(exact),
                acting: Lent::new(exact),
                doors: Lent::new(exact),
                report: Lent::new(exact),
            },
            before: (0..MOST_NUMBERS).map(|_| rng.word() as i64).collect(),
        }
    }

    fn compare_day(&mut self, day: &Day, answer: u8, numbers: &[i64]) -> Result<(), String> {
        let lent = &mut self.lent;
        let before = &self.before[..day.report];
        lent.due.load(&day.due);
        lent.acting.load(&day.acting);
        lent.doors.load(&day.doors);
        lent.report.load(before);
        let got = lateness(lent);
        if got != answer {
            return Err(format!("expected answer {answer}, got {got}"));
        }
        check("due ticks", &lent.due, &day.due)?;
        check("acting ticks", &lent.acting, &day.acting)?;
        check("doors", &lent.doors, &day.doors)?;
        // Behind the numbers stands what was there before.
        let left = before.get(numbers.len()..).unwrap_or_default();
        check("the report", &lent.report, &[numbers, left].concat())
    }
}

/// Everything that was lent, and nothing beside it.
fn check<T: Unit + Display>(name: &str, lent: &Lent<T>, wanted: &[T]) -> Result<(), String> {
    let found = lent.contents();
    if let Some(at) = (0..found.len()).find(|&at| found[at] != wanted[at]) {
        let (wanted, got) = (wanted[at], found[at]);
        return Err(format!(
            "number {at} of {name}: expected {wanted}, got {got}"
        ));
    }
    match lent.written_beside() {
        Some(where_to) => Err(format!("written {where_to} {name}")),
        None => Ok(()),
    }
}
