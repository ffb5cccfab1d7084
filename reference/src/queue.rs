//! The state of a queue, its book rules and its order rule.

use crate::links::{link, most_held, INSERTION_SLOTS, MOST_LINKS};
use std::collections::VecDeque;

/// The entries of one buffer, head first.
pub type Buffer = VecDeque<u64>;

/// A queue as its link number, its counters and what each buffer holds. Any
/// state may be written down here; `book_sound` tells the good ones.
#[derive(Clone, Debug, PartialEq, Eq)]
pub struct Queue {
    pub links: usize,
    /// c(1) to c(L).
    pub c: Vec<usize>,
    /// The insertion buffer I.
    pub insertion: Buffer,
    /// For link 1 to L: buffers 0 (A), 1 (B), 2 to k-1 (inner), k to 2k-1 (S).
    pub buffers: Vec<Vec<Buffer>>,
}

/// A buffer of the tree by its link, from 1, and its number in the link.
#[derive(Clone, Copy, Debug, PartialEq, Eq)]
pub struct Place {
    pub link: usize,
    pub buffer: usize,
}

/// A(link).
pub fn a(link: usize) -> Place {
    Place { link, buffer: 0 }
}

impl Queue {
    /// "Setup empties all buffers and makes every c equal to 1".
    pub fn set_up(links: usize) -> Queue {
        Queue {
            links,
            c: vec![1; links],
            insertion: Buffer::new(),
            buffers: (1..=links)
                .map(|i| vec![Buffer::new(); 2 * link(i).k])
                .collect(),
        }
    }

    pub fn buffer(&self, place: Place) -> &Buffer {
        &self.buffers[place.link - 1][place.buffer]
    }

    pub fn buffer_mut(&mut self, place: Place) -> &mut Buffer {
        &mut self.buffers[place.link - 1][place.buffer]
    }

    /// Entries in a link: A and all below it in the same link.
    pub fn held_in_link(&self, number: usize) -> usize {
        self.buffers[number - 1].iter().map(Buffer::len).sum()
    }

    /// Entries held: those in I and those in every link.
    pub fn held(&self) -> usize {
        self.insertion.len()
            + (1..=self.links)
                .map(|i| self.held_in_link(i))
                .sum::<usize>()
    }
}

/// "Its k-merger is a perfect binary tree over them, left to right, output B(i).
/// Merger v(i) has first input B(i), second input A(i+1), output A(i). In the
/// last link the second input is always empty."
///
/// The first and second input of the merger that feeds a buffer.
pub fn inputs(queue: &Queue, output: Place) -> [Option<Place>; 2] {
    let Place { link: i, buffer } = output;
    let in_link = |buffer| Some(Place { link: i, buffer });
    if buffer == 0 {
        [in_link(1), (i < queue.links).then(|| a(i + 1))]
    } else if buffer < link(i).k {
        [in_link(2 * buffer), in_link(2 * buffer + 1)]
    } else {
        // No merger feeds an S.
        [None, None]
    }
}

/// "Book rules: link number 1 to 4".
pub fn link_number_sound(queue: &Queue) -> bool {
    (1..=MOST_LINKS).contains(&queue.links)
}

/// All book rules but those about start places and marks, which are raw words.
pub fn book_sound(queue: &Queue) -> bool {
    link_number_sound(queue)
        && whole(queue)
        && counts_inside(queue)
        && counters_inside(queue)
        && unused_empty(queue)
        && lower_parts_inside(queue)
        && queue.held() <= most_held(queue.links)
}

/// A state lacking a counter or a buffer describes no book at all.
fn whole(queue: &Queue) -> bool {
    queue.c.len() == queue.links
        && queue.buffers.len() == queue.links
        && (1..=queue.links).all(|i| queue.buffers[i - 1].len() == 2 * link(i).k)
}

/// "every count [..] inside its buffer; I at most 7".
fn counts_inside(queue: &Queue) -> bool {
    let inside = |i: usize| {
        let counts = queue.buffers[i - 1].iter().map(Buffer::len);
        counts.zip(&link(i).capacities).all(|(n, most)| n <= *most)
    };
    queue.insertion.len() < INSERTION_SLOTS && (1..=queue.links).all(inside)
}

/// "c(i) from 1 to k(i)+1".
fn counters_inside(queue: &Queue) -> bool {
    (1..=queue.links).all(|i| (1..=link(i).k + 1).contains(&queue.c[i - 1]))
}

/// "S(i,j) empty for j at or above c(i)".
fn unused_empty(queue: &Queue) -> bool {
    (1..=queue.links).all(|i| {
        let first_unused = link(i).k + queue.c[i - 1] - 1;
        queue.buffers[i - 1][first_unused..]
            .iter()
            .all(Buffer::is_empty)
    })
}

/// "B(i), inner buffers and S of link i together at most (c(i)-1) x s(i)".
fn lower_parts_inside(queue: &Queue) -> bool {
    (1..=queue.links).all(|i| {
        let together = queue.held_in_link(i) - queue.buffer(a(i)).len();
        together <= (queue.c[i - 1] - 1) * link(i).s
    })
}

/// "A mark "exhausted" may stand only on a buffer with nothing in it and nothing
/// below it." For a queue that is sound without its marks.
pub fn mark_allowed(queue: &Queue, place: Place) -> bool {
    let below = inputs(queue, place).into_iter().flatten();
    queue.buffer(place).is_empty() && below.into_iter().all(|input| mark_allowed(queue, input))
}

/// "Order rule: each buffer ascends, equal neighbours allowed, and no entry is
/// smaller than one nearer the root on its way to A(1). I stands outside the
/// tree." For a queue whose book is sound.
pub fn order_kept(queue: &Queue) -> bool {
    // No word is smaller than 0, so 0 stands for nothing nearer the root.
    ascends(&queue.insertion) && order_kept_from(queue, a(1), 0)
}

/// The order rule for a buffer and all below it; `floor` is the largest entry
/// nearer the root, so that empty buffers may lie between.
fn order_kept_from(queue: &Queue, place: Place, floor: u64) -> bool {
    let buffer = queue.buffer(place);
    let head = *buffer.front().unwrap_or(&floor);
    let last = *buffer.back().unwrap_or(&floor);
    head >= floor
        && ascends(buffer)
        && inputs(queue, place)
            .into_iter()
            .flatten()
            .all(|input| order_kept_from(queue, input, last))
}

/// "each buffer ascends, equal neighbours allowed".
fn ascends(buffer: &Buffer) -> bool {
    buffer
        .iter()
        .zip(buffer.iter().skip(1))
        .all(|(one, next)| one <= next)
}
