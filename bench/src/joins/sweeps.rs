//! Inserts that sweep, at a steady number held.

use gorgalhut::c::{gorgalhut_insert, gorgalhut_setup, gorgalhut_take};
use reference::links::{array_words, link, most_held};
use reference::rng::Rng;

/// When an order is due.
#[derive(Clone, Copy)]
pub enum Orders {
    /// Less than two seconds after the entry that was taken last.
    Near,
    /// After every order before it.
    Later,
}

const TWO_SECONDS: u64 = 20_000;
const SEED: u64 = 1;

pub fn orders(name: &str) -> Option<Orders> {
    match name {
        "near" => Some(Orders::Near),
        "later" => Some(Orders::Later),
        _ => None,
    }
}

struct Gate {
    array: Vec<u64>,
    work: Vec<u64>,
    links: usize,
    orders: Orders,
    rng: Rng,
    last_due: u64,
    taken: u64,
}

impl Gate {
    fn new(links: usize, orders: Orders) -> Gate {
        let (mut word, mut steps) = (0, 0);
        let mut array = vec![0; array_words(links)];
        let (lent, words) = (array.as_mut_ptr(), array.len());
        // SAFETY: each pointer is of memory that is lent for the call.
        let answer = unsafe { gorgalhut_setup(lent, words, links as u64, &mut word, &mut steps) };
        assert_eq!(answer, 0, "setup was refused");
        Gate {
            array,
            work: vec![0; most_held(links)],
            links,
            orders,
            rng: Rng::new(SEED),
            last_due: 0,
            taken: 0,
        }
    }

    fn next_order(&mut self) -> u64 {
        self.last_due = match self.orders {
            Orders::Near => self.taken + self.rng.below(TWO_SECONDS),
            Orders::Later => self.last_due + 1 + self.rng.below(TWO_SECONDS / 300),
        };
        self.last_due << 32 | self.rng.below(1 << 24)
    }

    fn put(&mut self, entry: u64) {
        let (mut word, mut steps, mut packed) = (0, 0, false);
        let (lent, words) = (self.array.as_mut_ptr(), self.array.len());
        let (work, work_words) = (self.work.as_mut_ptr(), self.work.len());
        // SAFETY: each pointer is of memory that is lent for the call.
        let answer = unsafe {
            gorgalhut_insert(
                lent,
                words,
                work,
                work_words,
                entry,
                &mut word,
                &mut steps,
                &mut packed,
            )
        };
        assert_eq!(answer, 0, "an insert was refused");
    }

    fn take(&mut self) {
        let (mut word, mut steps) = (0, 0);
        let (lent, words) = (self.array.as_mut_ptr(), self.array.len());
        // SAFETY: each pointer is of memory that is lent for the call.
        let answer = unsafe { gorgalhut_take(lent, words, &mut word, &mut steps) };
        assert_eq!(answer, 0, "a take was refused");
        self.taken = word >> 32;
    }

    /// Whether the next insert sweeps: I has seven (docs/BOOK.md), and some counter is at most k(i).
    fn sweeps_next(&self) -> bool {
        self.array[8] % 65_536 == 7 && (1..=self.links).any(|i| self.array[i] <= link(i).k as u64)
    }
}

/// A put that sweeps: the counter looks for this function's name.
#[inline(never)]
fn counted_sweep(gate: &mut Gate, entry: u64) {
    gate.put(entry);
    // Something must stand behind the call, or it would be a jump.
    std::hint::black_box(());
}

/// Says how many puts swept. Filling, and two turns of all that is held, are not counted.
pub fn run(orders: Orders, links: usize, held: usize, pairs: usize) -> String {
    let mut gate = Gate::new(links, orders);
    for _ in 0..held {
        let entry = gate.next_order();
        gate.put(entry);
    }
    let mut swept = 0;
    for pair in 0..2 * held + pairs {
        gate.take();
        let entry = gate.next_order();
        if pair >= 2 * held && gate.sweeps_next() {
            counted_sweep(&mut gate, entry);
            swept += 1;
        } else {
            gate.put(entry);
        }
    }
    format!("sweeps {swept}")
}
