//! Whole days against a sorted multiset, and the bound on the merge steps.

mod common;

use common::{queue, set_up};
use reference::links::{link, most_held};
use reference::machine::{Machine, Outcome};
use reference::queue::{book_sound, order_kept};
use reference::rng::Rng;
use std::collections::BTreeMap;

/// "steps bound" by links: so much for each accepted insert and each packing.
const BOUNDS: [(u64, u64); 4] = [(2, 32), (6, 384), (13, 5_760), (22, 138_240)];

struct Day {
    links: usize,
    machine: Machine,
    /// Each entry held and how often.
    held: BTreeMap<u64, usize>,
    count: usize,
    inserts: u64,
    packings: u64,
    steps: u64,
}

impl Day {
    fn new(links: usize) -> Day {
        Day {
            links,
            machine: set_up(links),
            held: BTreeMap::new(),
            count: 0,
            inserts: 0,
            packings: 0,
            steps: 0,
        }
    }

    /// The answer and word the multiset gives a take or a look.
    fn smallest(&self) -> (u8, u64) {
        match self.held.first_key_value() {
            Some((entry, _)) => (0, *entry),
            None => (6, 0),
        }
    }

    fn insert(&mut self, entry: u64) {
        let outcome = self.machine.insert(entry);
        let full = self.count == most_held(self.links);
        assert_eq!(
            (outcome.answer, outcome.word),
            (if full { 5 } else { 0 }, 0)
        );
        if !full {
            *self.held.entry(entry).or_default() += 1;
            self.count += 1;
            self.inserts += 1;
            self.packings += u64::from(outcome.packed);
        }
        self.add_steps(outcome);
    }

    fn take(&mut self) {
        let outcome = self.machine.take();
        assert_eq!((outcome.answer, outcome.word), self.smallest());
        if let Some(mut first) = self.held.first_entry() {
            *first.get_mut() -= 1;
            if *first.get() == 0 {
                first.remove();
            }
            self.count -= 1;
        }
        self.add_steps(outcome);
    }

    fn look(&mut self) {
        let outcome = self.machine.look();
        assert_eq!((outcome.answer, outcome.word), self.smallest());
        self.add_steps(outcome);
    }

    /// "n: accepted inserts since setup. P: packings since setup, at most n
    /// divided by s(L), rounded down."
    fn add_steps(&mut self, outcome: Outcome) {
        self.steps += outcome.steps;
        let (each, packing) = BOUNDS[self.links - 1];
        assert!(self.steps <= each * self.inserts + packing * self.packings);
        assert!(self.packings <= self.inserts / link(self.links).s as u64);
    }

    fn check(&self) {
        let held = self.machine.held();
        assert_eq!(
            (held.answer, held.word, held.steps),
            (0, self.count as u64, 0)
        );
        assert_eq!(self.machine.audit(), Outcome::default());
        assert!(book_sound(queue(&self.machine)) && order_kept(queue(&self.machine)));
    }
}

/// Entries of one phase: nearly equal, any, rising or falling.
fn entry(rng: &mut Rng, kind: u64, clock: u64) -> u64 {
    let tick = match kind {
        0 => rng.below(4),
        1 => rng.below(1 << 32),
        2 => (1 << 31) + clock + rng.below(3),
        _ => (1 << 31) - clock + rng.below(3),
    };
    tick << 32 | rng.below(3) << 24 | rng.below(2)
}

/// A day of phases with more or fewer inserts; gives its packings.
fn run_day(links: usize, seed: u64, calls: usize, check_every: usize) -> u64 {
    let mut rng = Rng::new(seed);
    let mut day = Day::new(links);
    let (mut left, mut kind, mut inserts_in_100) = (most_held(links), seed % 4, 95);
    for call in 0..calls {
        if left == 0 {
            left = 1 + rng.size(2 * most_held(links));
            kind = rng.below(4);
            inserts_in_100 = [2, 40, 50, 60, 98][rng.size(5)];
        }
        left -= 1;
        if rng.below(100) < inserts_in_100 {
            let entry = entry(&mut rng, kind, call as u64);
            day.insert(entry);
        } else if rng.one_in(20) {
            day.look();
        } else {
            day.take();
        }
        if call % check_every == 0 {
            day.check();
        }
    }
    while day.count > 0 {
        day.take();
    }
    day.take();
    day.check();
    assert!(day.steps > 0);
    day.packings
}

fn run_days(links: usize, seeds: u64, calls: usize, check_every: usize) {
    let packings: u64 = (1..=seeds)
        .map(|seed| run_day(links, seed, calls, check_every))
        .sum();
    println!("{links} links, {seeds} days of {calls} calls: {packings} packings");
    assert!(packings >= 5, "packings are part of the bound");
}

#[test]
fn days_of_one_link() {
    run_days(1, 40, 3_000, 1);
}

#[test]
fn days_of_two_links() {
    run_days(2, 30, 6_000, 1);
}

#[test]
fn days_of_three_links() {
    run_days(3, 12, 20_000, 29);
}

#[test]
fn days_of_four_links() {
    run_days(4, 3, 150_000, 1_009);
}
