//! The queue over a lent array.

use crate::answers::{settle, Refusal, Result};
use crate::c;
use crate::entries::Entry;

/// How many links a queue has. More links hold more entries and need more memory.
#[derive(Clone, Copy, Debug, PartialEq, Eq, PartialOrd, Ord, Hash)]
pub enum Links {
    One = 1,
    Two = 2,
    Three = 3,
    Four = 4,
}

impl Links {
    /// The words that the array must have; more are allowed, and never touched.
    pub const fn array_words(self) -> usize {
        match self {
            Links::One => 296,
            Links::Two => 536,
            Links::Three => 2_628,
            Links::Four => 28_436,
        }
    }

    /// The words that the work area must have.
    pub const fn work_words(self) -> usize {
        match self {
            Links::One => 16,
            Links::Two => 96,
            Links::Three => 960,
            Links::Four => 17_280,
        }
    }

    /// How many entries can be held.
    pub const fn most_held(self) -> usize {
        self.work_words()
    }

    /// The first word of a sound book.
    fn in_array(array: &[u64]) -> Option<Links> {
        match array.first()? {
            1 => Some(Links::One),
            2 => Some(Links::Two),
            3 => Some(Links::Three),
            4 => Some(Links::Four),
            _ => None,
        }
    }
}

/// An entry that was taken out or looked at.
#[derive(Clone, Copy, Debug, PartialEq, Eq)]
pub struct Found {
    pub entry: Entry,
    /// Merge steps made: at most 16, 224, 2,396 or 23,500 with one to four links.
    pub steps: u64,
}

/// An entry that was put in.
#[derive(Clone, Copy, Debug, PartialEq, Eq)]
pub struct Inserted {
    /// Merge steps made: at most 16, 352, 5,712 or 138,176 with one to four links.
    pub steps: u64,
    /// Whether all entries were packed anew.
    pub packed: bool,
}

/// A queue in an array that is lent, with the work area that its inserts need.
#[derive(Debug)]
pub struct Queue<'a> {
    array: &'a mut [u64],
    work: &'a mut [u64],
}

/// Whether an array begins with a book that keeps every book rule.
pub fn book_sound(array: &[u64]) -> bool {
    // SAFETY: pointer and length are a slice's.
    unsafe { c::gorgalhut_book_sound(array.as_ptr(), array.len()) }
}

impl<'a> Queue<'a> {
    /// Makes an empty queue, whatever stood in the array. A work area that is too short is refused at once.
    pub fn set_up(array: &'a mut [u64], work: &'a mut [u64], links: Links) -> Result<Queue<'a>> {
        if work.len() < links.work_words() {
            return Err(Refusal::WorkShort);
        }
        let mut queue = Queue { array, work };
        queue.clear(links)?;
        Ok(queue)
    }

    /// Goes on with the queue that stands in the array. Refused if the book is not sound or the work area too short.
    pub fn resume(array: &'a mut [u64], work: &'a mut [u64]) -> Result<Queue<'a>> {
        let queue = Queue { array, work };
        queue.held()?;
        let links = Links::in_array(queue.array).ok_or(Refusal::BookBroken)?;
        if queue.work.len() < links.work_words() {
            return Err(Refusal::WorkShort);
        }
        Ok(queue)
    }

    /// Makes it an empty queue of so many links.
    pub fn clear(&mut self, links: Links) -> Result<()> {
        let (mut word, mut steps) = (0, 0);
        let (array, words) = (self.array.as_mut_ptr(), self.array.len());
        // SAFETY: pointer and length are a slice's, and the numbers are our own.
        settle(unsafe {
            c::gorgalhut_setup(array, words, links as u64, &raw mut word, &raw mut steps)
        })
    }

    /// Puts an entry in.
    pub fn insert(&mut self, entry: Entry) -> Result<Inserted> {
        let (mut word, mut steps, mut packed) = (0, 0, false);
        // SAFETY: pointers and lengths are those of two slices that are borrowed apart, and the numbers are our own.
        settle(unsafe {
            c::gorgalhut_insert(
                self.array.as_mut_ptr(),
                self.array.len(),
                self.work.as_mut_ptr(),
                self.work.len(),
                entry.word(),
                &raw mut word,
                &raw mut steps,
                &raw mut packed,
            )
        })?;
        Ok(Inserted { steps, packed })
    }

    /// Takes the smallest entry out.
    pub fn take(&mut self) -> Result<Found> {
        let (mut word, mut steps) = (0, 0);
        let (array, words) = (self.array.as_mut_ptr(), self.array.len());
        // SAFETY: pointer and length are a slice's, and the numbers are our own.
        settle(unsafe { c::gorgalhut_take(array, words, &raw mut word, &raw mut steps) })?;
        let entry = Entry::from_word(word);
        Ok(Found { entry, steps })
    }

    /// Looks at the smallest entry and leaves it. Entries may move inside the array, as in a take.
    pub fn look(&mut self) -> Result<Found> {
        let (mut word, mut steps) = (0, 0);
        let (array, words) = (self.array.as_mut_ptr(), self.array.len());
        // SAFETY: pointer and length are a slice's, and the numbers are our own.
        settle(unsafe { c::gorgalhut_look(array, words, &raw mut word, &raw mut steps) })?;
        let entry = Entry::from_word(word);
        Ok(Found { entry, steps })
    }

    /// How many entries are held.
    pub fn held(&self) -> Result<u64> {
        let (mut word, mut steps) = (0, 0);
        let (array, words) = (self.array.as_ptr(), self.array.len());
        // SAFETY: pointer and length are a slice's, and the numbers are our own.
        settle(unsafe { c::gorgalhut_held(array, words, &raw mut word, &raw mut steps) })?;
        Ok(word)
    }

    /// Whether every entry stands in order; refused as out of order if not.
    pub fn audit(&self) -> Result<()> {
        let (mut word, mut steps) = (0, 0);
        let (array, words) = (self.array.as_ptr(), self.array.len());
        // SAFETY: pointer and length are a slice's, and the numbers are our own.
        settle(unsafe { c::gorgalhut_audit(array, words, &raw mut word, &raw mut steps) })
    }

    /// The lent array, to be read.
    pub fn array(&self) -> &[u64] {
        self.array
    }
}
