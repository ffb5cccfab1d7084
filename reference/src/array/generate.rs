//! Seeded random arrays of every kind.

use super::built::{built_queue, disorder, garbage, near_order, random_array};
use super::damage::damage;
use super::near::near_array;
use super::RULES;
use crate::generate::Session;
use crate::links::{array_words, link, most_held, BOOK_WORDS, MOST_LINKS};
use crate::movement::{after_insert, After};
use crate::options::Options;
use crate::queue::Queue;
use crate::rng::Rng;

/// Where an array comes from.
#[derive(Clone, Copy, Debug, PartialEq, Eq, PartialOrd, Ord)]
pub enum Kind {
    /// A session of calls at some moment.
    Session,
    /// The same with entries out of order.
    Disordered,
    /// A sound book built directly.
    Built,
    /// A book at the boundary of a book rule, or just past it.
    Near,
    /// A sound book at the boundary of the order rule, or just past it.
    NearOrder,
    /// A sound book with changed words.
    Damaged,
    /// A sound book in an array that is too short for it.
    Short,
    /// Zeros of any length.
    Zeros,
    /// Any words of any length.
    Noise,
}

/// An array and where it comes from.
#[derive(Clone, Debug, PartialEq, Eq)]
pub struct Sample {
    pub kind: Kind,
    pub words: Vec<u64>,
}

/// The source of arrays. The same seed always gives the same ones.
pub struct Arrays {
    rng: Rng,
    /// One running session for each link number.
    sessions: Vec<Session>,
}

/// The orders that are run at most before the next array of so many links is
/// taken from its session; a full queue of 4 links takes many arrays to come.
const MOST_ORDERS: [usize; MOST_LINKS] = [60, 150, 400, 1200];

impl Arrays {
    pub fn new(seed: u64) -> Arrays {
        let mut rng = Rng::new(seed);
        let sessions = (1..=MOST_LINKS)
            .map(|links| session_of(links, rng.word()))
            .collect();
        Arrays { rng, sessions }
    }

    /// The next array.
    pub fn next_array(&mut self) -> Sample {
        let links = self.some_links();
        let kind = match self.rng.below(100) {
            0..=29 => Kind::Session,
            30..=37 => Kind::Disordered,
            38..=62 => Kind::Built,
            63..=74 => Kind::Near,
            75..=79 => Kind::NearOrder,
            80..=92 => Kind::Damaged,
            93..=97 => Kind::Short,
            98 => Kind::Zeros,
            _ => Kind::Noise,
        };
        let words = self.array_of(kind, links);
        Sample { kind, words }
    }

    /// The next array to be abused: mostly one that a careful caller would not lend.
    pub fn next_abused(&mut self) -> Sample {
        let links = self.some_links();
        let kind = match self.rng.below(100) {
            0..=9 => Kind::Session,
            10..=29 => Kind::Disordered,
            30..=39 => Kind::Built,
            40..=49 => Kind::Near,
            50..=54 => Kind::NearOrder,
            55..=74 => Kind::Damaged,
            75..=89 => Kind::Short,
            90 => Kind::Zeros,
            _ => Kind::Noise,
        };
        let words = self.array_of(kind, links);
        Sample { kind, words }
    }

    /// Few of 4 links, which take most of the time.
    fn some_links(&mut self) -> usize {
        match self.rng.below(100) {
            0..=34 => 1,
            35..=69 => 2,
            70..=96 => 3,
            _ => 4,
        }
    }

    fn array_of(&mut self, kind: Kind, links: usize) -> Vec<u64> {
        match kind {
            Kind::Session | Kind::Disordered | Kind::Built | Kind::NearOrder => {
                let queue = self.queue_of(kind, links);
                random_array(&mut self.rng, &queue)
            }
            Kind::Near => {
                let rule = RULES[self.rng.size(RULES.len())];
                let past = self.rng.one_in(2);
                near_array(&mut self.rng, links, rule, past)
            }
            Kind::Damaged => {
                let mut words = self.sound_array(links);
                damage(&mut self.rng, &mut words);
                words
            }
            Kind::Short => self.short_array(links),
            Kind::Zeros => vec![0; self.some_length()],
            Kind::Noise => self.noise(),
        }
    }

    fn queue_of(&mut self, kind: Kind, links: usize) -> Queue {
        match kind {
            Kind::Built => built_queue(&mut self.rng, links),
            Kind::NearOrder => {
                let broken = self.rng.one_in(2);
                near_order(&mut self.rng, links, broken)
            }
            _ => {
                let mut queue = self.moment(links);
                if kind == Kind::Disordered {
                    disorder(&mut self.rng, &mut queue);
                }
                queue
            }
        }
    }

    /// A sound array to be damaged or cut.
    fn sound_array(&mut self, links: usize) -> Vec<u64> {
        let kind = if self.rng.one_in(3) {
            Kind::Session
        } else {
            Kind::Built
        };
        let queue = self.queue_of(kind, links);
        random_array(&mut self.rng, &queue)
    }

    /// The queue of a session some orders later, often just before a sweep to a
    /// certain link or a packing.
    pub fn moment(&mut self, links: usize) -> Queue {
        let wanted = match self.rng.size(2 * (links + 1)) {
            0 => Some(After::Pack),
            i if i <= links => Some(After::SweepTo(i)),
            _ => None,
        };
        let mut orders = 1 + self.rng.size(MOST_ORDERS[links - 1]);
        // Packings and sweeps to the last link are far apart; some are waited for.
        let rare = [Some(After::Pack), Some(After::SweepTo(links))];
        if rare.contains(&wanted) && self.rng.one_in(3) {
            orders = 2 * most_held(links);
        }
        let session = &mut self.sessions[links - 1];
        for _ in 0..orders {
            session.step();
            let next = session.queue().map(after_insert);
            if wanted.is_some() && next == wanted {
                break;
            }
        }
        loop {
            if let Some(queue) = session.queue() {
                return queue.clone();
            }
            session.step();
        }
    }

    /// One word short of the stated length, or any number of words.
    fn short_array(&mut self, links: usize) -> Vec<u64> {
        let mut words = self.sound_array(links);
        let stated = array_words(links);
        let length = match self.rng.below(4) {
            0..=1 => stated - 1,
            2 => self.rng.size(stated),
            _ => self.some_length().min(stated - 1),
        };
        words.truncate(length);
        words
    }

    /// Any words, mostly with a link number.
    fn noise(&mut self) -> Vec<u64> {
        let length = self.some_length();
        let mut words = garbage(&mut self.rng, length);
        if let (Some(first), false) = (words.first_mut(), self.rng.one_in(4)) {
            *first = self.rng.below(6);
        }
        words
    }

    /// A length at or beside one that matters, or any below.
    fn some_length(&mut self) -> usize {
        let links = 1 + self.rng.size(3);
        let marked = [0, BOOK_WORDS, array_words(1), array_words(links)];
        let length = marked[self.rng.size(marked.len())];
        match self.rng.below(4) {
            0 => length,
            1 => length + 1,
            2 => length.saturating_sub(1),
            _ => self.rng.size(length + 1),
        }
    }

    /// Any number, for the caller's own choices.
    pub fn rng(&mut self) -> &mut Rng {
        &mut self.rng
    }

    /// A work area's length: mostly enough, else too short or beside the limit.
    pub fn some_work_words(&mut self, links: usize) -> usize {
        let most = most_held(links);
        match self.rng.below(24) {
            0 => most - 1,
            1 => self.rng.size(most),
            2 if links > 1 => most_held(links - 1),
            2 => 0,
            3..=4 => most + 1 + self.rng.size(9),
            _ => most,
        }
    }

    /// An entry to insert: mostly of a good door, often equal to one in the array.
    pub fn some_entry(&mut self, words: &[u64]) -> u64 {
        let good = self.rng.below(3) << 24;
        if let (Some(slots @ [_, ..]), true) = (words.get(BOOK_WORDS..), self.rng.one_in(4)) {
            return slots[self.rng.size(slots.len())] & !(0xFC << 24);
        }
        match self.rng.below(12) {
            0 => self.rng.word() | 3 << 24,
            1 => self.rng.word(),
            2 => good,
            3 => 0xFFFF_FFFF_00FF_FFFF | good,
            4..=5 => self.rng.word() & !(0xFF << 24) | good,
            6..=7 => self.rng.below(30),
            _ => self.rng.below(100) << 32 | good | self.rng.below(3),
        }
    }

    /// Links to set up: mostly those there is room for.
    pub fn some_setup(&mut self, length: usize) -> u64 {
        let fitting = (1..=MOST_LINKS).filter(|&links| array_words(links) <= length);
        match (self.rng.below(6), fitting.count() as u64) {
            (0, _) => [0, 5, 1 << 32, (1 << 32) + 1, u64::MAX][self.rng.size(5)],
            (1, _) => self.rng.below(6),
            (_, 0) => 1 + self.rng.below(4),
            (_, most) => 1 + self.rng.below(most),
        }
    }
}

/// A session whose setups are all of so many links.
fn session_of(links: usize, seed: u64) -> Session {
    Session::new(&Options {
        seed,
        links: Some(links),
        array: array_words(links),
        work: most_held(links),
        // A phase is then as long as filling the whole queue takes.
        lines: 6 * most_held(links) + link(links).s,
        ..Options::default()
    })
}
