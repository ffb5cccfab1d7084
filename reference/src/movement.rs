//! The rules of movement. All run on a queue whose book is sound; each gives the
//! merge steps it made: "Joins and layings are no merge steps."

use crate::joining::{self, smaller_head};
use crate::links::{link, INSERTION_SLOTS};
use crate::queue::{a, inputs, Buffer, Place, Queue};

/// "Fill a merger: while its output is not full, fill an empty first input if a
/// merger feeds it, then likewise the second; then one merge step. If both are
/// still empty, stop. Filling is a recursive walk down the merger tree."
///
/// The merger is the one that feeds buffer `buffer_number` of `link_number`. A
/// merger never reads A(x) where `exhausted_from_link` is x.
pub fn fill(
    queue: &mut Queue,
    link_number: usize,
    buffer_number: usize,
    exhausted_from_link: Option<usize>,
) -> u64 {
    let output = Place {
        link: link_number,
        buffer: buffer_number,
    };
    let exhausted = exhausted_from_link.map(a);
    let inputs = inputs(queue, output).map(|input| input.filter(|_| input != exhausted));
    let mut steps = 0;
    while queue.buffer(output).len() < link(link_number).capacities[buffer_number] {
        for input in inputs.into_iter().flatten() {
            if queue.buffer(input).is_empty() {
                steps += fill(queue, input.link, input.buffer, exhausted_from_link);
            }
        }
        if !merge_step(queue, inputs, output) {
            break;
        }
        steps += 1;
    }
    steps
}

/// One merge step, by `smaller_head`. False if both inputs are empty.
fn merge_step(queue: &mut Queue, inputs: [Option<Place>; 2], output: Place) -> bool {
    let heads = inputs.map(|input| input.and_then(|place| queue.buffer(place).front().copied()));
    let Some(chosen) = smaller_head(heads) else {
        return false;
    };
    let input = inputs[chosen].expect("an input with a head is there");
    let entry = queue.buffer_mut(input).pop_front();
    queue.buffer_mut(output).extend(entry);
    true
}

/// Where the smallest entry waits.
#[derive(Clone, Copy, Debug, PartialEq, Eq)]
enum Source {
    Tree,
    Insertion,
}

/// "if A(1) is empty, fill v(1). [Choose] the smaller of the heads of A(1) and I;
/// at equality A(1)'s."
fn choose(queue: &mut Queue, exhausted_from_link: Option<usize>) -> (Option<Source>, u64) {
    // With A(1) itself exhausted, I alone is left to take from.
    if exhausted_from_link == Some(1) {
        let source = queue.insertion.front().map(|_| Source::Insertion);
        return (source, 0);
    }
    let mut steps = 0;
    if queue.buffer(a(1)).is_empty() {
        steps = fill(queue, 1, 0, exhausted_from_link);
    }
    let source = match (queue.buffer(a(1)).front(), queue.insertion.front()) {
        (None, None) => None,
        (Some(tree), Some(insertion)) if insertion < tree => Some(Source::Insertion),
        (Some(_), _) => Some(Source::Tree),
        (None, Some(_)) => Some(Source::Insertion),
    };
    (source, steps)
}

/// "Take: [..] Hand out the smaller of the heads". Nothing if none is left.
pub fn take(queue: &mut Queue, exhausted_from_link: Option<usize>) -> (Option<u64>, u64) {
    let (source, steps) = choose(queue, exhausted_from_link);
    let entry = match source {
        None => None,
        Some(Source::Tree) => queue.buffer_mut(a(1)).pop_front(),
        Some(Source::Insertion) => queue.insertion.pop_front(),
    };
    (entry, steps)
}

/// "Look does the same and removes nothing."
pub fn look(queue: &mut Queue) -> (Option<u64>, u64) {
    let (source, steps) = choose(queue, None);
    let entry = match source {
        None => None,
        Some(Source::Tree) => queue.buffer(a(1)).front().copied(),
        Some(Source::Insertion) => queue.insertion.front().copied(),
    };
    (entry, steps)
}

/// Repeated takes until none is left: the run taken out and the steps.
fn take_all(queue: &mut Queue, exhausted_from_link: Option<usize>) -> (Buffer, u64) {
    let mut run = Buffer::new();
    let mut steps = 0;
    loop {
        let (entry, made) = take(queue, exhausted_from_link);
        steps += made;
        if entry.is_none() {
            return (run, steps);
        }
        run.extend(entry);
    }
}

/// What an insert does after it has placed its entry.
#[derive(Clone, Copy, Debug, PartialEq, Eq)]
pub enum After {
    Nothing,
    SweepTo(usize),
    Pack,
}

/// "If I now has 8, let i be the lowest link with c(i) at most k(i), and sweep to
/// it; if none, pack." Told before the entry is placed.
pub fn after_insert(queue: &Queue) -> After {
    if queue.insertion.len() + 1 < INSERTION_SLOTS {
        return After::Nothing;
    }
    match (1..=queue.links).find(|&i| queue.c[i - 1] <= link(i).k) {
        Some(i) => After::SweepTo(i),
        None => After::Pack,
    }
}

/// "Insert: place the entry in I before the first larger one. If I now has 8
/// [..]" sweep or pack.
pub fn insert(queue: &mut Queue, entry: u64) -> (After, u64) {
    let after = after_insert(queue);
    let larger = queue.insertion.iter().position(|&other| other > entry);
    let at = larger.unwrap_or(queue.insertion.len());
    queue.insertion.insert(at, entry);
    let steps = match after {
        After::Nothing => 0,
        After::SweepTo(i) => sweep(queue, i),
        After::Pack => pack(queue),
    };
    (after, steps)
}

/// "the path runs from A(1) through A(2) .. A(i), B(i) and inner buffers to
/// S(i, c(i))."
pub fn path(queue: &Queue, i: usize) -> Vec<Place> {
    let mut upwards = Vec::new();
    let mut buffer = link(i).k + queue.c[i - 1] - 1;
    while buffer >= 1 {
        upwards.push(Place { link: i, buffer });
        // Merger n has the inputs 2n and 2n+1, so halving leads to B, number 1.
        buffer /= 2;
    }
    (1..=i).map(a).chain(upwards.into_iter().rev()).collect()
}

/// "Note the counts on it. Empty links 1 to i-1 and I by repeated takes that
/// treat A(i) as exhausted [..]. Join this run with the run read along the path
/// from A(i) downwards [..]. Refill each path buffer from A(1) downwards to its
/// noted count. The rest goes into S(i, c(i)). Then c(i) rises by one and c(1) ..
/// c(i-1) become 1."
pub fn sweep(queue: &mut Queue, i: usize) -> u64 {
    let path = path(queue, i);
    let noted: Vec<usize> = path.iter().map(|&p| queue.buffer(p).len()).collect();
    let (emptied, steps) = take_all(queue, Some(i));
    let mut read = Buffer::new();
    for &place in path.iter().filter(|place| place.link == i) {
        read.append(queue.buffer_mut(place));
    }
    let mut joined = join(read, emptied);
    for (&place, &count) in path.iter().zip(&noted) {
        queue.buffer_mut(place).extend(joined.drain(..count));
    }
    let destination = path[path.len() - 1];
    queue.buffer_mut(destination).append(&mut joined);
    queue.c[i - 1] += 1;
    queue.c[..i - 1].fill(1);
    steps
}

/// "Join this run with the run read along the path [..]; at equal heads the
/// path's first." The rest stands behind what is laid.
fn join(mut path_run: Buffer, mut taken_run: Buffer) -> Buffer {
    let joined = joining::join(path_run.make_contiguous(), taken_run.make_contiguous());
    [&joined.laid, joined.rest].concat().into()
}

/// "Pack: take everything out by repeated takes, then lay it in order into
/// S(L,1), S(L,2), .., s(L) entries each, the last part full if need be. All other
/// buffers are empty. c(L) is one more than the number of S used; the others
/// are 1."
pub fn pack(queue: &mut Queue) -> u64 {
    let (mut run, steps) = take_all(queue, None);
    let last = queue.links;
    let mut used = 0;
    while !run.is_empty() {
        let part = run.len().min(link(last).s);
        let place = Place {
            link: last,
            buffer: link(last).k + used,
        };
        queue.buffer_mut(place).extend(run.drain(..part));
        used += 1;
    }
    queue.c.fill(1);
    queue.c[last - 1] = used + 1;
    steps
}
