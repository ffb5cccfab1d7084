//! One call on one array: what the library does against what is expected.

use crate::lent::Lent;
use crate::library::{self, Got};
use reference::array::calls::Call;
use reference::array::{
    broken_rules, decode, link_number, stretches, FIRST_BUFFER_WORD, FIRST_COUNTER_WORD,
};
use reference::limits::{longest_insert, longest_take};
use reference::links::{array_words, most_held, BOOK_WORDS, MOST_LINKS};
use reference::machine::Outcome;
use reference::queue::Queue;
use reference::rng::Rng;

/// What is lent to the library, and how it was before the call.
pub struct Memory {
    pub array: Lent,
    work: Lent,
    /// What a work area holds before a call, as long as the longest.
    work_before: Vec<u64>,
    /// Says on standard error what is about to be called.
    pub trace: bool,
}

/// A work area may be a little longer than it must be.
pub const MOST_WORK_WORDS: usize = 17_280 + 64;

impl Memory {
    pub fn new(trace: bool, exact: bool) -> Memory {
        assert!(most_held(MOST_LINKS) <= MOST_WORK_WORDS);
        let mut rng = Rng::new(0);
        Memory {
            array: Lent::new(exact),
            work: Lent::new(exact),
            work_before: (0..MOST_WORK_WORDS).map(|_| rng.word()).collect(),
            trace,
        }
    }

    /// The library's verdict on a book, which must change nothing.
    pub fn check_book(&mut self, words: &[u64], sound: bool) -> Result<(), String> {
        if self.trace {
            eprintln!("book of {} words", words.len());
        }
        self.array.load(words);
        let got = library::book_sound(&mut self.array);
        if got != sound {
            return Err(format!("expected verdict {sound}, got {got}"));
        }
        self.check_unchanged(words)
    }

    /// Makes the call on the loaded array, which holds `before`, and compares the
    /// results and all that is left. `after` is the queue to be found then; none if
    /// the array has to keep its words.
    pub fn check_call(
        &mut self,
        before: &[u64],
        call: Call,
        expected: &Outcome,
        after: Option<&Queue>,
    ) -> Result<(), String> {
        let work_words = match call {
            Call::Insert(_, work_words) => work_words,
            _ => 0,
        };
        if self.trace {
            eprintln!("{call:?} on {} words", before.len());
        }
        self.work.load(&self.work_before[..work_words]);
        let got = library::call(&mut self.array, &mut self.work, call, !expected.packed);
        check_limit(before, call, got.steps)?;
        check_results(expected, got)?;
        if expected.answer != 0 && self.work.contents() != &self.work_before[..work_words] {
            return Err("a refusal wrote into the work area".to_string());
        }
        if let Some(where_to) = self.work.written_beside() {
            return Err(format!("written {where_to} the work area"));
        }
        match after {
            None => self.check_unchanged(before),
            Some(queue) => self.check_changed(before, call, queue),
        }
    }

    /// "Every refusal changes nothing"; "held and audit change nothing".
    fn check_unchanged(&self, before: &[u64]) -> Result<(), String> {
        self.check_beside()?;
        check_words(before, self.array.contents(), 0..before.len(), "word")
    }

    fn check_beside(&self) -> Result<(), String> {
        match self.array.written_beside() {
            Some(where_to) => Err(format!("written {where_to} the array")),
            None => Ok(()),
        }
    }

    /// After an accepted call that may change the array.
    fn check_changed(&self, before: &[u64], call: Call, queue: &Queue) -> Result<(), String> {
        self.check_beside()?;
        let words = self.array.contents();
        let found = decode(words);
        if !found.is_queue(queue) {
            return Err(format!(
                "expected queue {}\ngot queue {}",
                crate::show::queue(queue),
                crate::show::book(words)
            ));
        }
        let broken = broken_rules(words);
        if !broken.is_empty() {
            let book = crate::show::book(words);
            return Err(format!("book rules broken: {broken:?}\ngot {book}"));
        }
        // "slots keep their words" in a setup, "Words past the stated length" always.
        let kept = match call {
            Call::Setup(_) => BOOK_WORDS,
            _ => array_words(queue.links),
        };
        check_words(before, words, kept..before.len(), "word that stays")?;
        check_unused(before, words, queue.links)
    }
}

/// How long one take, look or insert can run, whatever is in the array. Without a link
/// number it is refused.
fn check_limit(before: &[u64], call: Call, steps: u64) -> Result<(), String> {
    let links = link_number(before);
    let most = match call {
        Call::Take | Call::Look => links.map_or(0, longest_take),
        Call::Insert(..) => links.map_or(0, longest_insert),
        Call::Setup(_) | Call::Held | Call::Audit => return Ok(()),
    };
    if steps <= most {
        return Ok(());
    }
    Err(format!("{steps} steps, and the limit is {most}"))
}

fn check_results(expected: &Outcome, got: Got) -> Result<(), String> {
    let wanted = Got {
        answer: expected.answer,
        word: expected.word,
        steps: expected.steps,
        packed: expected.packed,
        beside: false,
    };
    if got == wanted {
        return Ok(());
    }
    Err(format!("\nexpected {wanted:x?}\ngot {got:x?}"))
}

fn check_words(
    before: &[u64],
    now: &[u64],
    mut range: std::ops::Range<usize>,
    what: &str,
) -> Result<(), String> {
    // Comparing whole stretches first is quick where nothing was changed.
    if before[range.clone()] == now[range.clone()] {
        return Ok(());
    }
    let at = range.find(|&at| before[at] != now[at]).unwrap_or_default();
    let (old, new) = (before[at], now[at]);
    Err(format!("{what} {at} was {old:#x} and is {new:#x}"))
}

/// docs/BOOK.md: words that are not used, and those of links behind L, are not
/// written.
fn check_unused(before: &[u64], now: &[u64], links: usize) -> Result<(), String> {
    let behind_counters = FIRST_COUNTER_WORD + links..FIRST_BUFFER_WORD;
    let behind_buffers = FIRST_BUFFER_WORD + stretches(links).len()..BOOK_WORDS;
    check_words(before, now, behind_counters, "unused book word")?;
    check_words(before, now, behind_buffers, "unused book word")
}
