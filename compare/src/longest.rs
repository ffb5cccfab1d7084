//! How long one call runs: takes, looks and inserts on sound books, half of them random, half
//! built so that a take or an insert runs long.

use crate::arrays::compare_call;
use crate::check::Memory;
use crate::options::Options;
use crate::show;
use crate::tally::Tally;
use reference::array::built::{built_queue, random_array};
use reference::array::calls::Call;
use reference::array::generate::Kind;
use reference::array::longest::{long_insert, long_take};
use reference::links::most_held;
use reference::queue::a;
use reference::rng::Rng;

/// The links of arrays in turn; few of 4, which take most of the time.
const LINKS: [usize; 20] = [1, 2, 3, 4, 1, 2, 3, 1, 2, 3, 1, 2, 3, 1, 2, 3, 1, 2, 3, 3];

pub fn compare(options: &Options, memory: &mut Memory, tally: &mut Tally) -> Result<(), String> {
    let mut rng = Rng::new(options.seed);
    for number in 0..options.arrays {
        let links = LINKS[number % LINKS.len()];
        let turn = number / LINKS.len();
        let words = some_array(&mut rng, links, turn);
        let calls = some_calls(&mut rng, links);
        if number < options.from {
            continue;
        }
        let random = turn % 4 > 1;
        compare_array(&words, links, random, &calls, memory, tally).map_err(|difference| {
            let book = show::book(&words);
            format!("array {number}, {difference}\nthe array before: {book}")
        })?;
    }
    Ok(())
}

/// The first two turns have the plain ones, which run longest.
fn some_array(rng: &mut Rng, links: usize, turn: usize) -> Vec<u64> {
    let mut queue = match turn % 4 {
        0 => long_take(rng, links, turn == 0),
        1 => long_insert(rng, links, turn == 1),
        _ => built_queue(rng, links),
    };
    // Otherwise few takes of them would make steps.
    if turn % 4 == 2 {
        queue.buffer_mut(a(1)).clear();
    }
    random_array(rng, &queue)
}

/// A take and an insert, each on the array as it was made, and a look on some.
fn some_calls(rng: &mut Rng, links: usize) -> Vec<Call> {
    let entry = rng.word() & !(0xFF << 24) | rng.below(3) << 24;
    let mut calls = vec![Call::Take, Call::Insert(entry, most_held(links))];
    calls.extend(rng.one_in(4).then_some(Call::Look));
    calls
}

fn compare_array(
    words: &[u64],
    links: usize,
    random: bool,
    calls: &[Call],
    memory: &mut Memory,
    tally: &mut Tally,
) -> Result<(), String> {
    for &call in calls {
        let outcome = compare_call(words, call, memory, tally)?;
        tally.add_longest(links, random, call, outcome.steps);
    }
    tally.add_array(Kind::Built, Some(links), true);
    Ok(())
}
