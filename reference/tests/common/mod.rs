//! What several tests share. Not every test uses all of it.
#![allow(dead_code)]

use reference::frames::run_line;
use reference::links::{array_words, link, most_held};
use reference::machine::{Machine, Outcome};
use reference::queue::{Buffer, Queue};
use reference::rng::Rng;

/// A machine with exactly the memory that so many links need, zeros.
pub fn machine(links: usize) -> Machine {
    Machine::zeros(array_words(links), most_held(links))
}

/// The same, set up.
pub fn set_up(links: usize) -> Machine {
    let mut machine = machine(links);
    assert_eq!(machine.setup(links), Outcome::default());
    machine
}

/// A machine around a given state.
pub fn around(queue: Queue) -> Machine {
    let mut machine = machine(queue.links);
    machine.queue = Some(queue);
    machine
}

pub fn queue(machine: &Machine) -> &Queue {
    machine.queue.as_ref().unwrap()
}

/// Entry of this due tick, door 0, command 0.
pub fn entry(tick: u64) -> u64 {
    tick << 32
}

/// Inserts ticks `from` to `to`; each must be accepted. Gives all steps.
pub fn insert_ticks(machine: &mut Machine, from: u64, to: u64) -> u64 {
    (from..=to)
        .map(|tick| {
            let outcome = machine.insert(entry(tick));
            assert_eq!(outcome.answer, 0, "tick {tick}");
            outcome.steps
        })
        .sum()
}

/// The lines of a session; a last one without its end counts if it has a byte.
pub fn lines_of(bytes: &[u8]) -> Vec<&[u8]> {
    let mut lines: Vec<&[u8]> = bytes.split(|&byte| byte == b'\n').collect();
    if lines.last().is_some_and(|last| last.is_empty()) {
        lines.pop();
    }
    lines
}

pub fn run_lines(machine: &mut Machine, bytes: &[u8]) -> Vec<Outcome> {
    let lines = lines_of(bytes);
    lines.iter().map(|line| run_line(machine, line)).collect()
}

/// All entries of a queue in rising order, however they lie.
pub fn sorted_entries(queue: &Queue) -> Vec<u64> {
    let in_links = queue.buffers.iter().flatten().flatten();
    let mut all: Vec<u64> = queue.insertion.iter().chain(in_links).copied().collect();
    all.sort_unstable();
    all
}

/// A number of entries from 0 to `most`, often one of the two ends.
fn count(rng: &mut Rng, most: usize) -> usize {
    match rng.below(4) {
        0 => 0,
        1 => most,
        _ => rng.size(most + 1),
    }
}

fn some_entries(rng: &mut Rng, count: usize) -> Buffer {
    (0..count).map(|_| rng.below(50)).collect()
}

/// A state that keeps the book rules and as a rule breaks the order rule.
pub fn random_sound_queue(rng: &mut Rng, links: usize) -> Queue {
    let mut queue = Queue::set_up(links);
    let mut room = most_held(links);
    let in_insertion = if rng.one_in(2) { 7 } else { rng.size(8) };
    queue.insertion = some_entries(rng, in_insertion);
    room -= in_insertion;
    for i in 1..=links {
        let k = link(i).k;
        queue.c[i - 1] = if rng.one_in(2) {
            k + 1
        } else {
            1 + rng.size(k + 1)
        };
        let mut lower_room = (queue.c[i - 1] - 1) * link(i).s;
        // From A downwards or from the last S upwards, else the lower S stay empty.
        let mut numbers: Vec<usize> = (0..k + queue.c[i - 1] - 1).collect();
        if rng.one_in(2) {
            numbers.reverse();
        }
        for number in numbers {
            let most = link(i).capacities[number].min(room);
            let most = if number == 0 {
                most
            } else {
                most.min(lower_room)
            };
            let taken = count(rng, most);
            room -= taken;
            lower_room -= if number == 0 { 0 } else { taken };
            queue.buffers[i - 1][number] = some_entries(rng, taken);
        }
    }
    queue
}
