//! Many calls on one array, with the reference beside the library.

use crate::check::Memory;
use crate::options::{Group, Options};
use crate::tally::Tally;
use reference::array::built::{garbage, random_array};
use reference::array::calls::Call;
use reference::array::generate::Arrays;
use reference::array::{decode, LINK_WORD};
use reference::frames::Order;
use reference::generate::Session;
use reference::links::{array_words, most_held, MOST_LINKS};
use reference::machine::{Machine, Outcome};
use reference::options as session_options;
use reference::queue::Queue;
use reference::rng::Rng;

/// The library's array during a session.
struct Course<'a> {
    memory: &'a mut Memory,
    /// The array before the next call.
    before: Vec<u64>,
    tally: &'a mut Tally,
    name: String,
    calls: usize,
}

impl<'a> Course<'a> {
    fn new(name: String, words: Vec<u64>, memory: &'a mut Memory, tally: &'a mut Tally) -> Self {
        memory.array.load(&words);
        Course {
            memory,
            before: words,
            tally,
            name,
            calls: 0,
        }
    }

    /// One call on the array as the last one left it.
    fn call(&mut self, call: Call, outcome: &Outcome, after: Option<&Queue>) -> Result<(), String> {
        let changing = outcome.answer == 0 && !matches!(call, Call::Held | Call::Audit);
        let after = after.filter(|_| changing);
        self.memory
            .check_call(&self.before, call, outcome, after)
            .map_err(|difference| {
                let (name, calls) = (&self.name, self.calls);
                let book = crate::show::book(&self.before);
                format!("{name}, call {calls}: {call:x?}: {difference}\nthe array before: {book}")
            })?;
        if changing {
            self.before.copy_from_slice(self.memory.array.contents());
        }
        self.calls += 1;
        self.tally.add_session_call(call, outcome);
        Ok(())
    }
}

/// Sessions without inserts: queues from sessions of our own are emptied.
pub fn emptying(
    options: &Options,
    source: &mut Arrays,
    memory: &mut Memory,
    tally: &mut Tally,
) -> Result<(), String> {
    for links in 1..=MOST_LINKS {
        let mut left = options.session_calls / MOST_LINKS;
        while left > 0 {
            let queue = source.moment(links);
            left -= empty_one(options.group, queue, left, source.rng(), memory, tally)?;
        }
    }
    Ok(())
}

/// Empties one queue; gives the number of calls that it took.
fn empty_one(
    group: Group,
    queue: Queue,
    most: usize,
    rng: &mut Rng,
    memory: &mut Memory,
    tally: &mut Tally,
) -> Result<usize, String> {
    let words = random_array(rng, &queue);
    let mut machine = Machine {
        array_words: words.len(),
        work_words: 0,
        queue: Some(queue),
    };
    let name = format!("emptying session of {} words", words.len());
    let mut course = Course::new(name, words, memory, tally);
    let mut nothing_left = 0;
    while course.calls < most && nothing_left < 3 {
        let (call, outcome) = some_call(group, rng, &mut machine);
        course.call(call, &outcome, machine.queue.as_ref())?;
        nothing_left += usize::from(outcome.answer == 6);
    }
    Ok(course.calls)
}

/// A call of the group that needs no work area, run by the machine beside the library.
fn some_call(group: Group, rng: &mut Rng, machine: &mut Machine) -> (Call, Outcome) {
    let others = group != Group::Takes;
    match rng.below(2_000) {
        0 if others => {
            let links = rng.below(6);
            (Call::Setup(links), machine.setup(links as usize))
        }
        1..=150 => (Call::Look, machine.look()),
        151..=250 => (Call::Held, machine.held()),
        251..=350 if others => (Call::Audit, machine.audit()),
        _ => (Call::Take, machine.take()),
    }
}

/// Sessions of all calls: one for each link number, and one that changes it.
pub fn whole(options: &Options, memory: &mut Memory, tally: &mut Tally) -> Result<(), String> {
    let many = options.session_calls / (MOST_LINKS + 1);
    for links in 0..=MOST_LINKS {
        let fixed = (links > 0).then_some(links);
        whole_session(options.seed + links as u64, fixed, many, memory, tally)?;
    }
    Ok(())
}

/// A session of setups of so many links each, or of 1 to 3.
fn whole_session(
    seed: u64,
    links: Option<usize>,
    calls: usize,
    memory: &mut Memory,
    tally: &mut Tally,
) -> Result<(), String> {
    let mut rng = Rng::new(seed);
    let most_links = links.unwrap_or(3);
    let words = unset_array(&mut rng, most_links);
    let work_words = most_held(most_links) + rng.size(3);
    let mut session = Session::new(&session_options::Options {
        seed,
        links,
        array: words.len(),
        work: work_words,
        // Long enough for a phase that fills the whole queue.
        lines: calls.max(6 * most_held(most_links)),
        ..session_options::Options::default()
    });
    let name = match links {
        Some(links) => format!("session of {links} links"),
        None => format!("session of 1 to {most_links} links"),
    };
    let mut course = Course::new(name, words, memory, tally);
    for _ in 0..calls {
        let (order, outcome) = session.step();
        course.call(call_of(order, work_words), &outcome, session.queue())?;
    }
    Ok(())
}

/// An array that no setup has seen, a little longer than it must be.
fn unset_array(rng: &mut Rng, links: usize) -> Vec<u64> {
    let length = array_words(links) + rng.size(9);
    let mut words = garbage(rng, length);
    words[LINK_WORD] = 0;
    debug_assert!(decode(&words).queue().is_none());
    words
}

fn call_of(order: Order, work_words: usize) -> Call {
    match order {
        Order::Setup(links) => Call::Setup(u64::from(links)),
        Order::Insert(entry) => Call::Insert(entry, work_words),
        Order::Take => Call::Take,
        Order::Look => Call::Look,
        Order::Held => Call::Held,
        Order::Audit => Call::Audit,
    }
}
