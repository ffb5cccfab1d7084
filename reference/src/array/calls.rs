//! What each call on an array of any length and content has to answer, and the
//! queue that it has to leave behind.

use super::{decode, link_number, verdict};
use crate::links::{array_words, most_held, MOST_LINKS};
use crate::machine::{door, Outcome};
use crate::movement::{self, After};
use crate::queue::{order_kept, Queue};

/// A call with all that it is given besides the array.
#[derive(Clone, Copy, Debug, PartialEq, Eq)]
pub enum Call {
    Setup(u64),
    /// The entry and the words of the work area.
    Insert(u64, usize),
    Take,
    Look,
    Held,
    Audit,
}

/// What a call comes to.
#[derive(Clone, Debug, PartialEq, Eq)]
pub struct Expected {
    pub outcome: Outcome,
    /// The queue afterwards; none if the array keeps all its words.
    pub after: Option<Queue>,
}

/// What this call comes to on this array.
pub fn expected(words: &[u64], call: Call) -> Expected {
    match call {
        Call::Setup(links) => setup(words, links),
        Call::Insert(entry, work_words) => insert(words, work_words, entry),
        Call::Take => take(words),
        Call::Look => look(words),
        Call::Held => held(words),
        Call::Audit => audit(words),
    }
}

/// "Every refusal changes nothing".
fn settle(result: Result<Expected, u8>) -> Expected {
    result.unwrap_or_else(unchanged)
}

/// An answer that brings neither word nor steps, and an array that keeps its words.
fn unchanged(answer: u8) -> Expected {
    Expected {
        outcome: Outcome::refused(answer),
        after: None,
    }
}

fn done(word: u64, steps: u64, after: Option<Queue>) -> Expected {
    let outcome = Outcome {
        word,
        steps,
        ..Outcome::default()
    };
    Expected { outcome, after }
}

/// Refuses with this answer if `condition` holds.
fn refuse(answer: u8, condition: bool) -> Result<(), u8> {
    if condition {
        Err(answer)
    } else {
        Ok(())
    }
}

/// "Checks run: setup 1, 2".
pub fn setup(words: &[u64], links: u64) -> Expected {
    if !(1..=MOST_LINKS as u64).contains(&links) {
        return unchanged(1);
    }
    if words.len() < array_words(links as usize) {
        return unchanged(2);
    }
    done(0, 0, Some(Queue::set_up(links as usize)))
}

/// "all others: 2 (296 words), 4 (link number), 2 (its L)".
fn lent_links(words: &[u64]) -> Result<usize, u8> {
    refuse(2, words.len() < array_words(1))?;
    let links = link_number(words).ok_or(4)?;
    refuse(2, words.len() < array_words(links))?;
    Ok(links)
}

/// "4 | the book breaks a book rule".
fn sound_queue(words: &[u64]) -> Result<Queue, u8> {
    refuse(4, !verdict(words))?;
    // A sound book in an array of the stated length has every entry inside it.
    decode(words).queue().ok_or(4)
}

/// "then insert 3, 4, 7, 5".
pub fn insert(words: &[u64], work_words: usize, entry: u64) -> Expected {
    settle(try_insert(words, work_words, entry))
}

fn try_insert(words: &[u64], work_words: usize, entry: u64) -> Result<Expected, u8> {
    let links = lent_links(words)?;
    refuse(3, work_words < most_held(links))?;
    let mut queue = sound_queue(words)?;
    refuse(7, door(entry) > 2)?;
    refuse(5, queue.held() == most_held(links))?;
    let (after, steps) = movement::insert(&mut queue, entry);
    let mut expected = done(0, steps, Some(queue));
    match after {
        After::Nothing => {}
        After::SweepTo(i) => expected.outcome.swept_to = Some(i),
        After::Pack => expected.outcome.packed = true,
    }
    Ok(expected)
}

/// "take and look 4, 6".
fn queue_with_entries(words: &[u64]) -> Result<Queue, u8> {
    lent_links(words)?;
    let queue = sound_queue(words)?;
    refuse(6, queue.held() == 0)?;
    Ok(queue)
}

pub fn take(words: &[u64]) -> Expected {
    settle(queue_with_entries(words).and_then(|mut queue| {
        let (entry, steps) = movement::take(&mut queue, None);
        Ok(done(entry.ok_or(6)?, steps, Some(queue)))
    }))
}

pub fn look(words: &[u64]) -> Expected {
    settle(queue_with_entries(words).and_then(|mut queue| {
        let (entry, steps) = movement::look(&mut queue);
        Ok(done(entry.ok_or(6)?, steps, Some(queue)))
    }))
}

/// "held 4"; "held and audit change nothing and report 0 steps."
pub fn held(words: &[u64]) -> Expected {
    settle(lent_links(words).and_then(|_| {
        let queue = sound_queue(words)?;
        Ok(done(queue.held() as u64, 0, None))
    }))
}

/// "audit 4, 9".
pub fn audit(words: &[u64]) -> Expected {
    settle(lent_links(words).and_then(|_| {
        let queue = sound_queue(words)?;
        refuse(9, !order_kept(&queue))?;
        Ok(done(0, 0, None))
    }))
}
