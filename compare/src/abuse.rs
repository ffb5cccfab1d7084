//! Abuse: all six calls with any arguments, mixed, on arrays of every kind. An array
//! stays as the calls before left it, and is damaged again now and then.

use crate::arrays::some_insert;
use crate::check::Memory;
use crate::options::Options;
use crate::show;
use crate::tally::Tally;
use reference::array::calls::{expected, Call};
use reference::array::damage::damage;
use reference::array::generate::Arrays;
use reference::array::{link_number, verdict};
use reference::links::array_words;

/// The most calls on one array.
const MOST_CALLS: usize = 80;

pub fn compare(options: &Options, memory: &mut Memory, tally: &mut Tally) -> Result<(), String> {
    let mut source = Arrays::new(options.seed);
    let (mut number, mut calls) = (0, 0);
    while calls < options.calls {
        let many = (1 + source.rng().size(MOST_CALLS)).min(options.calls - calls);
        abuse_array(&mut source, many, memory, tally)
            .map_err(|difference| format!("array {number}, {difference}"))?;
        number += 1;
        calls += many;
    }
    Ok(())
}

fn abuse_array(
    source: &mut Arrays,
    calls: usize,
    memory: &mut Memory,
    tally: &mut Tally,
) -> Result<(), String> {
    let sample = source.next_abused();
    let kind = sample.kind;
    let mut words = sample.words;
    tally.add_array(kind, link_number(&words), verdict(&words));
    memory.array.load(&words);
    for number in 0..calls {
        if source.rng().one_in(32) && damaged(source, &mut words) {
            memory.array.load(&words);
        }
        let call = some_call(source, &words);
        let wanted = expected(&words, call);
        memory
            .check_call(&words, call, &wanted.outcome, wanted.after.as_ref())
            .map_err(|difference| {
                let book = show::book(&words);
                format!(
                    "{kind:?}, call {number}: {call:x?}: {difference}\nthe array before: {book}"
                )
            })?;
        if wanted.after.is_some() {
            words.copy_from_slice(memory.array.contents());
        }
        tally.add_call(call, &wanted.outcome);
    }
    Ok(())
}

/// Damages the book, where there is one in an array that is long enough for it.
fn damaged(source: &mut Arrays, words: &mut [u64]) -> bool {
    let fits = verdict(words) && link_number(words).is_some_and(|l| array_words(l) <= words.len());
    if fits {
        damage(source.rng(), words);
    }
    fits
}

/// Few setups, so that the array has time to be used; more where nothing else is done.
fn some_call(source: &mut Arrays, words: &[u64]) -> Call {
    let setups = if verdict(words) { 2 } else { 15 };
    match source.rng().below(100) {
        n if n < setups => Call::Setup(source.some_setup(words.len())),
        0..=49 => some_insert(source, words),
        50..=79 => Call::Take,
        80..=87 => Call::Look,
        88..=93 => Call::Held,
        _ => Call::Audit,
    }
}
