//! The queues that are compared.

use crate::books::packs_next;
use crate::library::{gorgalhut_insert, gorgalhut_setup, gorgalhut_take, memory};
use std::cmp::Reverse;
use std::collections::BinaryHeap;

pub trait Queue {
    /// Makes it empty.
    fn clear(&mut self);
    /// Puts an entry in.
    fn put(&mut self, entry: u64);
    /// Takes the smallest entry out; one is held.
    fn take(&mut self) -> u64;
    /// Whether the next put takes everything out and lays it in again.
    fn packs_next(&self) -> bool {
        false
    }
}

/// The proved queue in memory of its own. Every call checks all it is lent, and its answer is looked at.
pub struct Gorgalhut {
    array: Vec<u64>,
    work: Vec<u64>,
    links: usize,
}

impl Gorgalhut {
    pub fn new(links: usize) -> Gorgalhut {
        let (array, work) = memory(links);
        Gorgalhut { array, work, links }
    }
}

impl Queue for Gorgalhut {
    fn clear(&mut self) {
        let (mut word, mut steps) = (0, 0);
        // SAFETY: each pointer is of memory that is lent for the call.
        let answer = unsafe {
            gorgalhut_setup(
                self.array.as_mut_ptr(),
                self.array.len(),
                self.links as u64,
                &mut word,
                &mut steps,
            )
        };
        assert_eq!(answer, 0, "setup was refused");
    }

    #[inline(always)]
    fn put(&mut self, entry: u64) {
        let (mut word, mut steps, mut packed) = (0, 0, false);
        // SAFETY: each pointer is of memory that is lent for the call.
        let answer = unsafe {
            gorgalhut_insert(
                self.array.as_mut_ptr(),
                self.array.len(),
                self.work.as_mut_ptr(),
                self.work.len(),
                entry,
                &mut word,
                &mut steps,
                &mut packed,
            )
        };
        assert_eq!(answer, 0, "an insert was refused");
    }

    #[inline(always)]
    fn take(&mut self) -> u64 {
        let (mut word, mut steps) = (0, 0);
        // SAFETY: each pointer is of memory that is lent for the call.
        let answer = unsafe {
            gorgalhut_take(
                self.array.as_mut_ptr(),
                self.array.len(),
                &mut word,
                &mut steps,
            )
        };
        assert_eq!(answer, 0, "a take was refused");
        word
    }

    fn packs_next(&self) -> bool {
        packs_next(self.links, &self.array)
    }
}

/// The standard library's binary heap.
pub struct Binary {
    heap: BinaryHeap<Reverse<u64>>,
}

impl Binary {
    pub fn new(most: usize) -> Binary {
        Binary {
            heap: BinaryHeap::with_capacity(most + 1),
        }
    }
}

impl Queue for Binary {
    fn clear(&mut self) {
        self.heap.clear();
    }

    #[inline(always)]
    fn put(&mut self, entry: u64) {
        self.heap.push(Reverse(entry));
    }

    #[inline(always)]
    fn take(&mut self) -> u64 {
        self.heap.pop().expect("one is held").0
    }
}

/// A heap with four children to an entry. Three unused words before the first let each four lie in one cache line.
pub struct FourAry {
    words: Vec<u64>,
}

/// Where the smallest entry stands.
const ROOT: usize = 3;

fn parent(at: usize) -> usize {
    at / 4 + 2
}

fn first_child(at: usize) -> usize {
    4 * (at - 2)
}

/// The smallest of four children and its place, by three comparisons.
fn least_of_four(first: usize, four: &[u64]) -> (usize, u64) {
    let least = |x: (usize, u64), y: (usize, u64)| if y.1 < x.1 { y } else { x };
    least(
        least((first, four[0]), (first + 1, four[1])),
        least((first + 2, four[2]), (first + 3, four[3])),
    )
}

/// The smallest of the last children, fewer than four, and its place.
fn least_of(first: usize, words: &[u64]) -> Option<(usize, u64)> {
    (first..words.len())
        .map(|at| (at, words[at]))
        .min_by_key(|found| found.1)
}

impl FourAry {
    pub fn new(most: usize) -> FourAry {
        let mut words = Vec::with_capacity(ROOT + most + 1);
        words.resize(ROOT, 0);
        FourAry { words }
    }
}

impl Queue for FourAry {
    fn clear(&mut self) {
        self.words.truncate(ROOT);
    }

    #[inline(always)]
    fn put(&mut self, entry: u64) {
        let mut at = self.words.len();
        self.words.push(entry);
        let words = &mut self.words[..];
        while at > ROOT {
            let above = parent(at);
            if words[above] <= entry {
                break;
            }
            words[at] = words[above];
            at = above;
        }
        words[at] = entry;
    }

    #[inline(always)]
    fn take(&mut self) -> u64 {
        let smallest = self.words[ROOT];
        let last = self.words.pop().expect("one is held");
        let words = &mut self.words[..];
        if words.len() == ROOT {
            return smallest;
        }
        // The hole left at the root moves down to where the last entry fits.
        let mut at = ROOT;
        loop {
            let first = first_child(at);
            let (least, entry) = match words.get(first..first + 4) {
                Some(four) => least_of_four(first, four),
                None => match least_of(first, words) {
                    Some(found) => found,
                    None => break,
                },
            };
            if last <= entry {
                break;
            }
            words[at] = entry;
            at = least;
        }
        words[at] = last;
        smallest
    }
}

/// An array that descends: the smallest entry is its last.
pub struct Sorted {
    words: Vec<u64>,
}

impl Sorted {
    pub fn new(most: usize) -> Sorted {
        Sorted {
            words: Vec::with_capacity(most + 1),
        }
    }
}

impl Queue for Sorted {
    fn clear(&mut self) {
        self.words.clear();
    }

    #[inline(always)]
    fn put(&mut self, entry: u64) {
        let at = self.words.partition_point(|&held| held > entry);
        self.words.insert(at, entry);
    }

    #[inline(always)]
    fn take(&mut self) -> u64 {
        self.words.pop().expect("one is held")
    }
}
