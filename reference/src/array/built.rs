//! Queues built directly, not by calls, and the arrays they are laid into.

use super::{buffer, buffer_mut, lay, stretches, way_up};
use crate::links::{array_words, link, most_held, INSERTION_SLOTS};
use crate::queue::{a, inputs, mark_allowed, Buffer, Place, Queue};
use crate::rng::Rng;

/// How full the buffers are.
#[derive(Clone, Copy, Debug, PartialEq, Eq)]
enum Density {
    /// Most are empty, the others have one or two.
    Sparse,
    /// Anything, often one of the two ends.
    Mixed,
    /// As much as the rules leave room for.
    Full,
}

/// A state that keeps every book rule, with counters for one certain movement.
pub fn built_queue(rng: &mut Rng, links: usize) -> Queue {
    let mut queue = Queue::set_up(links);
    set_counters(rng, &mut queue);
    let density = match rng.below(8) {
        0..=2 => Density::Sparse,
        3..=6 => Density::Mixed,
        _ => Density::Full,
    };
    set_counts(rng, &mut queue, density);
    if rng.one_in(2) {
        set_rising_entries(rng, &mut queue);
    } else {
        set_any_entries(rng, &mut queue);
    }
    queue
}

/// Counters with which a full I is swept to each link alike, or packed.
fn set_counters(rng: &mut Rng, queue: &mut Queue) {
    let target = 1 + rng.size(queue.links + 1);
    for i in 1..=queue.links {
        let k = link(i).k;
        queue.c[i - 1] = match i {
            _ if i < target => k + 1,
            _ if i == target => 1 + rng.size(k),
            _ => 1 + rng.size(k + 1),
        };
    }
}

/// A number of entries up to `most`.
fn some_count(rng: &mut Rng, density: Density, most: usize) -> usize {
    match (density, rng.below(4)) {
        (Density::Full, _) | (Density::Mixed, 0) => most,
        (Density::Mixed, 1) => 0,
        (Density::Mixed, _) => rng.size(most + 1),
        (Density::Sparse, 0) => most.min(1 + rng.size(2)),
        (Density::Sparse, _) => 0,
    }
}

fn set_counts(rng: &mut Rng, queue: &mut Queue, density: Density) {
    let mut room = most_held(queue.links);
    // A queue filled from the last link upwards has more in its lower parts.
    let upwards = rng.one_in(2);
    let in_insertion = match rng.below(4) {
        0 => some_count(rng, density, INSERTION_SLOTS - 1),
        _ => INSERTION_SLOTS - 1,
    };
    queue.insertion = Buffer::from(vec![0; in_insertion]);
    room -= in_insertion;
    for turn in 1..=queue.links {
        let i = if upwards {
            queue.links + 1 - turn
        } else {
            turn
        };
        set_link_counts(rng, queue, i, density, &mut room);
    }
}

/// `room` is how many more may be held.
fn set_link_counts(rng: &mut Rng, queue: &mut Queue, i: usize, density: Density, room: &mut usize) {
    let used = queue.c[i - 1] - 1;
    let mut lower_room = used * link(i).s;
    let mut numbers: Vec<usize> = (0..link(i).k + used).collect();
    // From A downwards or from the last S upwards, else the lower S stay empty.
    if rng.one_in(2) {
        numbers.reverse();
    }
    for number in numbers {
        let mut most = link(i).capacities[number].min(*room);
        if number > 0 {
            most = most.min(lower_room);
        }
        let count = some_count(rng, density, most);
        *room -= count;
        lower_room -= if number > 0 { count } else { 0 };
        queue.buffers[i - 1][number] = Buffer::from(vec![0; count]);
    }
}

/// Any entries: few different ones, or any word, doors above 2 as well.
fn set_any_entries(rng: &mut Rng, queue: &mut Queue) {
    let few = rng.one_in(2);
    for number in 0..stretches(queue.links).len() {
        for entry in buffer_mut(queue, number) {
            *entry = if few { rng.below(30) } else { rng.word() };
        }
    }
}

/// Entries that keep the order rule, with many ties.
fn set_rising_entries(rng: &mut Rng, queue: &mut Queue) {
    let step = [2, 3, 1 << 33][rng.size(3)];
    let begin = rng.below(4);
    rise(rng, &mut queue.insertion, begin, step);
    rise_below(rng, queue, a(1), begin, step);
}

fn rise_below(rng: &mut Rng, queue: &mut Queue, place: Place, floor: u64, step: u64) {
    let last = rise(rng, queue.buffer_mut(place), floor, step);
    for input in inputs(queue, place).into_iter().flatten() {
        rise_below(rng, queue, input, last, step);
    }
}

/// Each entry is the one before it or up to `step` - 1 more. Gives the last.
fn rise(rng: &mut Rng, buffer: &mut Buffer, floor: u64, step: u64) -> u64 {
    let mut last = floor;
    for entry in buffer {
        last += rng.below(step) * rng.below(2);
        *entry = last;
    }
    last
}

/// The number of some buffer that has entries.
pub fn some_filled(rng: &mut Rng, queue: &Queue) -> Option<usize> {
    let numbers = 0..stretches(queue.links).len();
    let filled: Vec<usize> = numbers.filter(|&n| !buffer(queue, n).is_empty()).collect();
    (!filled.is_empty()).then(|| filled[rng.size(filled.len())])
}

/// The largest that may not be passed at this place of an ordered queue: the entry
/// before it, or the last nearer the root.
fn floor_of(queue: &Queue, number: usize, at: usize) -> u64 {
    if at > 0 {
        return buffer(queue, number)[at - 1];
    }
    let Some(place) = stretches(queue.links)[number].place else {
        return 0;
    };
    let nearer = way_up(place).skip(1);
    let last = nearer.filter_map(|upper| queue.buffer(upper).back().copied());
    last.max().unwrap_or(0)
}

/// Lowers one entry to the least that the order rule allows, or one less. Nothing
/// happens where nothing less is a word.
pub fn lower_one_entry(rng: &mut Rng, queue: &mut Queue, broken: bool) {
    let Some(number) = some_filled(rng, queue) else {
        return;
    };
    let count = buffer(queue, number).len();
    // Heads are compared with what is nearer the root, so they come often.
    let at = if rng.one_in(2) { 0 } else { rng.size(count) };
    let floor = floor_of(queue, number, at);
    buffer_mut(queue, number)[at] = floor.saturating_sub(u64::from(broken));
}

/// A built queue on the boundary of the order rule, or just past it.
pub fn near_order(rng: &mut Rng, links: usize, broken: bool) -> Queue {
    let mut queue = built_queue(rng, links);
    set_rising_entries(rng, &mut queue);
    lower_one_entry(rng, &mut queue, broken);
    queue
}

/// Puts entries of a queue out of order, in one of several ways.
pub fn disorder(rng: &mut Rng, queue: &mut Queue) {
    let Some(number) = some_filled(rng, queue) else {
        return;
    };
    match rng.below(6) {
        0 => shuffle(rng, buffer_mut(queue, number)),
        1 => buffer_mut(queue, number).make_contiguous().reverse(),
        2 => shuffle(rng, &mut queue.insertion),
        3 => lower_one_entry(rng, queue, true),
        4 => {
            for number in 0..stretches(queue.links).len() {
                shuffle(rng, buffer_mut(queue, number));
            }
        }
        _ => {
            let count = buffer(queue, number).len();
            buffer_mut(queue, number)[rng.size(count)] = rng.word();
        }
    }
}

fn shuffle(rng: &mut Rng, buffer: &mut Buffer) {
    for at in 1..buffer.len() {
        buffer.swap(at, rng.size(at + 1));
    }
}

/// Start places inside: all at the front, all at the end, or anywhere.
pub fn random_starts(rng: &mut Rng, queue: &Queue) -> Vec<usize> {
    let way = rng.below(6);
    let numbered = stretches(queue.links).iter().enumerate();
    numbered
        .map(|(number, stretch)| {
            let most = stretch.capacity - buffer(queue, number).len();
            match way {
                0 => 0,
                1 => most,
                _ => rng.size(most + 1),
            }
        })
        .collect()
}

/// Marks where they may stand: nowhere, everywhere, or here and there.
pub fn random_marks(rng: &mut Rng, queue: &Queue) -> Vec<bool> {
    let way = rng.below(6);
    let allowed = |place| match place {
        None => queue.insertion.is_empty(),
        Some(place) => mark_allowed(queue, place),
    };
    let stretches = stretches(queue.links).iter();
    stretches
        .map(|stretch| match way {
            0 => false,
            1 => allowed(stretch.place),
            _ => rng.one_in(2) && allowed(stretch.place),
        })
        .collect()
}

/// Words that mean nothing: all alike, like small entries, or any.
pub fn garbage(rng: &mut Rng, length: usize) -> Vec<u64> {
    match rng.below(5) {
        0 => vec![0; length],
        1 => vec![u64::MAX; length],
        2 => (0..length).map(|_| rng.below(40)).collect(),
        _ => (0..length).map(|_| rng.word()).collect(),
    }
}

/// The stated length, or more than that.
fn random_length(rng: &mut Rng, links: usize) -> usize {
    let stated = array_words(links);
    match rng.below(20) {
        0..=9 => stated,
        10..=15 => stated + 1 + rng.size(5),
        16..=18 => stated + rng.size(300),
        // As if set up for fewer links than there is room for.
        _ => stated.max(array_words((links + 1).min(3))),
    }
}

/// The queue in an array with random start places and marks, garbage elsewhere.
pub fn random_array(rng: &mut Rng, queue: &Queue) -> Vec<u64> {
    let length = random_length(rng, queue.links);
    let mut words = garbage(rng, length);
    let starts = random_starts(rng, queue);
    let marks = random_marks(rng, queue);
    lay(queue, &starts, &marks, &mut words);
    words
}
