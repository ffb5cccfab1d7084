//! The report of lateness, with faults of its own.

use super::fault as any_fault;
use reference::lateness::{Pair, Row, MOST_PAIRS};
use std::slice::from_raw_parts;

/// Numbers of a report.
const REPORT: usize = 18;

/// A fault of lateness alone.
fn fault(what: &str) -> bool {
    any_fault(&format!("lateness-{what}"))
}

/// What is lent for a report.
struct Lent {
    due: *const u32,
    acting: *const u32,
    doors: *const u8,
    counts: [usize; 3],
    report: *mut i64,
    room: usize,
}

#[no_mangle]
unsafe extern "C" fn gorgalhut_lateness(
    due: *const u32,
    due_count: usize,
    acting: *const u32,
    acting_count: usize,
    doors: *const u8,
    door_count: usize,
    report: *mut i64,
    report_len: usize,
) -> u8 {
    let lent = Lent {
        due,
        acting,
        doors,
        counts: [due_count, acting_count, door_count],
        report,
        room: report_len,
    };
    let pairs = lent.pairs();
    let answer = answer(&lent, &pairs);
    lent.write(answer, &numbers(answer, &pairs));
    lent.wrong_writes();
    answer
}

/// The checks in their order, or nearly.
fn answer(lent: &Lent, pairs: &[Pair]) -> u8 {
    let most = match () {
        _ if fault("most-4095") => MOST_PAIRS - 1,
        _ if fault("most-4097") => MOST_PAIRS + 1,
        _ => MOST_PAIRS,
    };
    let above = if fault("door-3") { 3 } else { 2 };
    let checks = [
        (10, lent.refused()),
        (15, pairs.len() > most),
        (7, pairs.iter().any(|pair| pair.door > above)),
    ];
    let order = match () {
        _ if fault("door-first") => [0, 2, 1],
        _ if fault("lending-last") => [1, 2, 0],
        _ => [0, 1, 2],
    };
    let met = order.iter().find(|&&at| checks[at].1);
    met.map_or(0, |&at| checks[at].0)
}

/// The numbers to be written for an answer.
fn numbers(answer: u8, pairs: &[Pair]) -> Vec<i64> {
    if answer != 0 && !(answer == 7 && fault("rows-with-7")) {
        return vec![0; REPORT];
    }
    let rows = [0, 1, 2].map(|door| nearly_row(door, pairs));
    rows.iter().flat_map(Row::numbers).collect()
}

fn nearly_row(door: u8, pairs: &[Pair]) -> Row {
    let [both_added, plain, half_late, unsigned] =
        ["both-added", "plain", "half-late", "unsigned"].map(fault);
    let own = |pair: &&Pair| pair.door == door || both_added && pair.door == 0;
    let late = |pair: &Pair| {
        let ticks = pair.lateness();
        match () {
            _ if plain => i64::from(pair.acting) - i64::from(pair.due),
            _ if half_late && ticks == -(1 << 31) => 1 << 31,
            _ if unsigned => ticks.rem_euclid(1 << 32),
            _ => ticks,
        }
    };
    let all: Vec<i64> = pairs.iter().filter(own).map(late).collect();
    let mut row = Row::of(all.clone());
    wrong_numbers(&all, &mut row);
    row
}

/// Changes one number of a row, as a fault would.
fn wrong_numbers(late: &[i64], row: &mut Row) {
    if late.is_empty() {
        if fault("empty-row") {
            row.earliest = i64::MAX;
        }
        return;
    }
    let mut sorted = late.to_vec();
    sorted.sort_unstable();
    if fault("upper-median") {
        row.median = sorted[sorted.len() / 2];
    }
    if fault("median-unsorted") {
        row.median = late[(late.len() - 1) / 2];
    }
    if fault("earliest-from-zero") {
        row.earliest = row.earliest.min(0);
    }
    if fault("latest-from-zero") {
        row.latest = row.latest.max(0);
    }
    if fault("exact-within-1") {
        row.exact = late.iter().filter(|ticks| ticks.abs() <= 1).count() as i64;
    }
    if fault("sum-of-32-bits") {
        row.sum = i64::from(row.sum as i32);
    }
}

impl Lent {
    /// As many pairs as all three have.
    unsafe fn pairs(&self) -> Vec<Pair> {
        let many = self.counts.into_iter().min().unwrap_or_default();
        let due = from_raw_parts(self.due, many);
        let acting = from_raw_parts(self.acting, many);
        let doors = from_raw_parts(self.doors, many);
        let ticks = due.iter().zip(acting);
        let pair = |((&due, &acting), &door)| Pair { due, acting, door };
        ticks.zip(doors).map(pair).collect()
    }

    /// Whether counts or report are not as they have to be, or nearly.
    fn refused(&self) -> bool {
        let [due, acting, doors] = self.counts;
        let unequal = match () {
            _ if fault("due-unchecked") => acting != doors,
            _ if fault("acting-unchecked") => due != doors,
            _ if fault("doors-unchecked") => due != acting,
            _ => due != acting || acting != doors,
        };
        unequal || self.room + usize::from(fault("report-17")) < REPORT
    }

    unsafe fn write(&self, answer: u8, numbers: &[i64]) {
        let written = match answer {
            10 => fault("written-with-10"),
            7 | 15 => !fault(&format!("unwritten-with-{answer}")),
            _ => true,
        };
        // The stand-in writes beside the report only where that is the fault.
        let many = if answer == 10 {
            self.room.min(REPORT)
        } else {
            REPORT
        };
        if written {
            std::ptr::copy_nonoverlapping(numbers.as_ptr(), self.report, many);
        }
        if written && fault("written-behind") && self.room > REPORT {
            *self.report.add(REPORT) ^= 1;
        }
    }

    /// Writes where none are allowed.
    unsafe fn wrong_writes(&self) {
        let [due, acting, doors] = self.counts;
        if fault("writes-due") && due > 0 {
            *self.due.cast_mut() ^= 1;
        }
        if fault("writes-acting") && acting > 0 {
            *self.acting.cast_mut().add(acting - 1) ^= 1;
        }
        if fault("writes-doors") && doors > 0 {
            *self.doors.cast_mut() ^= 1;
        }
        if fault("report-behind") {
            *self.report.add(self.room) = 1;
        }
        if fault("reads-behind") && self.room >= REPORT {
            // Written again, so that only a tool that watches memory sees it.
            let read = self.due.add(due).read_volatile();
            let first = self.report.read_volatile();
            self.report.write_volatile(first + i64::from(read));
            self.report.write_volatile(first);
        }
    }
}
