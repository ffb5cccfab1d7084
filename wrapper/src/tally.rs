//! The tally of a race day.

use crate::answers::{number_of, Result};
use crate::c;
use crate::queue::{Found, Inserted};

/// Accepted inserts, entries handed out by take, merge steps and packings. A field that would pass its largest value
/// keeps that value.
#[derive(Clone, Copy, Debug, Default, PartialEq, Eq)]
pub struct Tally {
    pub inserts: u64,
    pub takes: u64,
    pub steps: u64,
    pub packings: u64,
}

const INSERT: u8 = 1;
const TAKE: u8 = 2;
const LOOK: u8 = 3;

impl Tally {
    /// A day begins with nothing.
    pub fn new() -> Tally {
        Tally::default()
    }

    /// Adds what an insert came to; a refused one adds nothing.
    pub fn add_insert(&mut self, result: &Result<Inserted>) {
        let (steps, packed) = result.map_or((0, false), |done| (done.steps, done.packed));
        self.add(INSERT, number_of(result), steps, packed);
    }

    /// Adds what a take came to.
    pub fn add_take(&mut self, result: &Result<Found>) {
        let steps = result.map_or(0, |found| found.steps);
        self.add(TAKE, number_of(result), steps, false);
    }

    /// Adds what a look came to: its merge steps alone.
    pub fn add_look(&mut self, result: &Result<Found>) {
        let steps = result.map_or(0, |found| found.steps);
        self.add(LOOK, number_of(result), steps, false);
    }

    fn add(&mut self, call: u8, answer: u8, steps: u64, packed: bool) {
        // SAFETY: the four numbers are fields of one record that is borrowed.
        let known = unsafe {
            c::gorgalhut_tally_add(
                &raw mut self.inserts,
                &raw mut self.takes,
                &raw mut self.steps,
                &raw mut self.packings,
                call,
                answer,
                steps,
                packed,
            )
        };
        debug_assert!(known || answer != 0, "an accepted call is always added");
    }
}
