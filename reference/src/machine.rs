//! The calls, with their checks in the document's order.

use crate::links::{array_words, most_held, MOST_LINKS};
use crate::movement::{self, After};
use crate::queue::{book_sound, link_number_sound, order_kept, Queue};

/// What the lent memory amounts to: its lengths and the queue in it.
#[derive(Clone, Debug, PartialEq, Eq)]
pub struct Machine {
    pub array_words: usize,
    pub work_words: usize,
    /// None is an array of zeros: "An array of zeros breaks them" (the book rules).
    pub queue: Option<Queue>,
}

/// "Every call answers with a number, a word and steps." An insert also tells
/// where it swept to and whether it packed.
#[derive(Clone, Copy, Debug, Default, PartialEq, Eq)]
pub struct Outcome {
    pub answer: u8,
    pub word: u64,
    pub steps: u64,
    pub swept_to: Option<usize>,
    pub packed: bool,
}

impl Outcome {
    /// A refusal's word and steps are 0.
    pub fn refused(answer: u8) -> Outcome {
        Outcome {
            answer,
            ..Outcome::default()
        }
    }

    /// "0 | done".
    fn done(word: u64, steps: u64) -> Outcome {
        Outcome {
            word,
            steps,
            ..Outcome::default()
        }
    }
}

/// "Bits 24 to 31: door".
pub fn door(entry: u64) -> u8 {
    (entry >> 24) as u8
}

/// Refuses with this answer if `condition` holds.
fn refuse(answer: u8, condition: bool) -> Result<(), u8> {
    if condition {
        Err(answer)
    } else {
        Ok(())
    }
}

/// A refused call's outcome is its answer alone.
fn settle(result: Result<Outcome, u8>) -> Outcome {
    result.unwrap_or_else(Outcome::refused)
}

impl Machine {
    /// Lent memory of these lengths, all zeros.
    pub fn zeros(array_words: usize, work_words: usize) -> Machine {
        Machine {
            array_words,
            work_words,
            queue: None,
        }
    }

    /// "Checks run: setup 1, 2".
    pub fn setup(&mut self, links: usize) -> Outcome {
        if !(1..=MOST_LINKS).contains(&links) {
            return Outcome::refused(1);
        }
        if self.array_words < array_words(links) {
            return Outcome::refused(2);
        }
        self.queue = Some(Queue::set_up(links));
        Outcome::default()
    }

    /// "all others: 2 (296 words), 4 (link number), 2 (its L)".
    fn lent_queue(&self) -> Result<&Queue, u8> {
        refuse(2, self.array_words < array_words(1))?;
        let queue = self.queue.as_ref().ok_or(4)?;
        refuse(4, !link_number_sound(queue))?;
        refuse(2, self.array_words < array_words(queue.links))?;
        Ok(queue)
    }

    /// "4 | the book breaks a book rule", for calls that check nothing between.
    fn sound_queue(&self) -> Result<&Queue, u8> {
        let queue = self.lent_queue()?;
        refuse(4, !book_sound(queue))?;
        Ok(queue)
    }

    /// The queue to change, once the checks have found one.
    fn checked(&mut self) -> Result<&mut Queue, u8> {
        self.queue.as_mut().ok_or(4)
    }

    /// "then insert 3, 4, 7, 5".
    fn check_insert(&self, entry: u64) -> Result<(), u8> {
        let queue = self.lent_queue()?;
        refuse(3, self.work_words < most_held(queue.links))?;
        refuse(4, !book_sound(queue))?;
        refuse(7, door(entry) > 2)?;
        refuse(5, queue.held() == most_held(queue.links))
    }

    pub fn insert(&mut self, entry: u64) -> Outcome {
        settle(self.try_insert(entry))
    }

    fn try_insert(&mut self, entry: u64) -> Result<Outcome, u8> {
        self.check_insert(entry)?;
        let (after, steps) = movement::insert(self.checked()?, entry);
        let mut outcome = Outcome::done(0, steps);
        match after {
            After::Nothing => {}
            After::SweepTo(i) => outcome.swept_to = Some(i),
            After::Pack => outcome.packed = true,
        }
        Ok(outcome)
    }

    /// "take and look 4, 6".
    fn check_take(&self) -> Result<(), u8> {
        let queue = self.sound_queue()?;
        refuse(6, queue.held() == 0)
    }

    pub fn take(&mut self) -> Outcome {
        settle(self.try_take())
    }

    fn try_take(&mut self) -> Result<Outcome, u8> {
        self.check_take()?;
        let (entry, steps) = movement::take(self.checked()?, None);
        Ok(Outcome::done(entry.ok_or(6)?, steps))
    }

    pub fn look(&mut self) -> Outcome {
        settle(self.try_look())
    }

    fn try_look(&mut self) -> Result<Outcome, u8> {
        self.check_take()?;
        let (entry, steps) = movement::look(self.checked()?);
        Ok(Outcome::done(entry.ok_or(6)?, steps))
    }

    /// "held 4"; "held and audit change nothing and report 0 steps."
    pub fn held(&self) -> Outcome {
        settle(
            self.sound_queue()
                .map(|queue| Outcome::done(queue.held() as u64, 0)),
        )
    }

    /// "audit 4, 9".
    pub fn audit(&self) -> Outcome {
        settle(self.try_audit())
    }

    fn try_audit(&self) -> Result<Outcome, u8> {
        let queue = self.sound_queue()?;
        refuse(9, !order_kept(queue))?;
        Ok(Outcome::default())
    }
}
