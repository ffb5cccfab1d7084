//! Calls on many generated arrays, each call on the array as it was made.

use crate::check::{Memory, MOST_WORK_WORDS};
use crate::options::{Group, Options};
use crate::show;
use crate::tally::Tally;
use reference::array::calls::{expected, Call};
use reference::array::generate::{Arrays, Sample};
use reference::array::{link_number, verdict};
use reference::machine::Outcome;

/// Compares the arrays of a seed; gives their source back.
pub fn compare(
    options: &Options,
    memory: &mut Memory,
    tally: &mut Tally,
) -> Result<Arrays, String> {
    let mut source = Arrays::new(options.seed);
    for number in 0..options.arrays {
        let sample = source.next_array();
        // Made for the arrays that are left out as well, so that the others stay the same.
        let calls = calls_on(options.group, &mut source, &sample.words);
        if number < options.from {
            continue;
        }
        compare_array(&sample, &calls, memory, tally).map_err(|difference| {
            let (kind, book) = (sample.kind, show::book(&sample.words));
            format!("array {number}, {kind:?}: {difference}\nthe array before: {book}")
        })?;
    }
    Ok(source)
}

const TAKES: [Call; 3] = [Call::Take, Call::Look, Call::Held];

/// The calls of a group to be made on an array, each on a copy of its own.
fn calls_on(group: Group, source: &mut Arrays, words: &[u64]) -> Vec<Call> {
    match group {
        Group::Takes => TAKES.to_vec(),
        Group::Calls => {
            let setup = Call::Setup(source.some_setup(words.len()));
            [&[setup][..], &TAKES, &[Call::Audit]].concat()
        }
        Group::Insert => vec![some_insert(source, words), some_insert(source, words)],
        // The others make no calls of their own on an array.
        _ => Vec::new(),
    }
}

pub fn some_insert(source: &mut Arrays, words: &[u64]) -> Call {
    let links = link_number(words).unwrap_or(1 + source.rng().size(3));
    let work_words = source.some_work_words(links).min(MOST_WORK_WORDS);
    Call::Insert(source.some_entry(words), work_words)
}

fn compare_array(
    sample: &Sample,
    calls: &[Call],
    memory: &mut Memory,
    tally: &mut Tally,
) -> Result<(), String> {
    let words = &sample.words;
    let sound = verdict(words);
    if calls.is_empty() {
        memory.check_book(words, sound)?;
    }
    for &call in calls {
        compare_call(words, call, memory, tally)?;
    }
    tally.add_array(sample.kind, link_number(words), sound);
    Ok(())
}

/// One call on a copy of the array; gives what came of it.
pub fn compare_call(
    words: &[u64],
    call: Call,
    memory: &mut Memory,
    tally: &mut Tally,
) -> Result<Outcome, String> {
    let wanted = expected(words, call);
    memory.array.load(words);
    memory
        .check_call(words, call, &wanted.outcome, wanted.after.as_ref())
        .map_err(|difference| format!("{call:x?}: {difference}"))?;
    tally.add_call(call, &wanted.outcome);
    Ok(wanted.outcome)
}
