//! The report of how early or late the doors were.

use crate::lent::Lent;

/// What is lent for a report.
pub struct Lateness {
    pub due: Lent<u32>,
    pub acting: Lent<u32>,
    pub doors: Lent<u8>,
    pub report: Lent<i64>,
}

#[cfg(feature = "lateness")]
extern "C" {
    fn gorgalhut_lateness(
        due: *const u32,
        due_count: usize,
        acting: *const u32,
        acting_count: usize,
        doors: *const u8,
        door_count: usize,
        report: *mut i64,
        report_len: usize,
    ) -> u8;
}

#[cfg(feature = "lateness")]
pub fn lateness(lent: &mut Lateness) -> u8 {
    // SAFETY: each pointer and length is of memory that is lent for the call.
    unsafe {
        gorgalhut_lateness(
            lent.due.pointer(),
            lent.due.length(),
            lent.acting.pointer(),
            lent.acting.length(),
            lent.doors.pointer(),
            lent.doors.length(),
            lent.report.pointer(),
            lent.report.length(),
        )
    }
}

#[cfg(not(feature = "lateness"))]
pub fn lateness(_lent: &mut Lateness) -> u8 {
    unreachable!("built without the feature lateness")
}
