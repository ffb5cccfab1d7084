//! Sound books on which one take or one insert runs long.
//!
//! A take fills most if A, B and inner buffers are all empty. How often it fills an inner
//! buffer, each time whole, lies in the order in which the entries of a link come out: it
//! is most if of two inputs one is left full, and the other was filled as late as can be.

use super::built::disorder;
use super::{buffer, buffer_mut, stretches};
use crate::links::{link, most_held, Link, INSERTION_SLOTS};
use crate::queue::{Buffer, Place, Queue};
use crate::rng::Rng;

/// A queue whose next take runs long; the plain one runs as long as any known.
pub fn long_take(rng: &mut Rng, links: usize, plain: bool) -> Queue {
    let mut queue = last_counters(links);
    for i in 1..=links {
        let manner = Manner::some(rng, plain);
        let course = manner.course(link(i), 1, link(i).capacities[1]);
        lay_course(rng, &mut queue.buffers[i - 1], &course);
    }
    if !plain {
        add_few(rng, &mut queue);
        add_behind(rng, &mut queue);
        if rng.one_in(4) {
            disorder(rng, &mut queue);
        }
    }
    queue
}

/// Empty, and every S may be used.
fn last_counters(links: usize) -> Queue {
    let mut queue = Queue::set_up(links);
    queue.c = (1..=links).map(|i| link(i).k + 1).collect();
    queue
}

/// In what order the two inputs of a merger are drawn from.
struct Manner {
    /// So many from one input before it is the other's turn.
    block: usize,
    /// How the fillings of the two inputs are parted: 1 is by half, 0 and 2 are beside it.
    parting: usize,
}

/// What a merger does with one of its inputs.
struct Share {
    /// Entries that come into the input.
    into: usize,
    /// Those of them that the merger draws.
    drawn: usize,
}

impl Manner {
    fn some(rng: &mut Rng, plain: bool) -> Manner {
        if plain {
            return Manner {
                block: usize::MAX,
                parting: 1,
            };
        }
        let block = match rng.below(4) {
            0 => 1,
            1 => 1 + rng.size(64),
            _ => usize::MAX,
        };
        let parting = rng.size(3);
        Manner { block, parting }
    }

    /// How the merger that feeds a buffer makes so many steps with the most fillings of its
    /// two inputs.
    fn shares(&self, link: &Link, buffer: usize, steps: usize) -> [Share; 2] {
        // No merger feeds an S, so all that an S gives is drawn.
        if 2 * buffer >= link.k {
            let half = steps / 2;
            return [half, steps - half].map(|drawn| Share { into: drawn, drawn });
        }
        let size = link.capacities[2 * buffer];
        let fillings = (steps - 1) / size + 2;
        let first = (fillings / 2 + self.parting - 1).clamp(1, fillings - 1);
        // The first is filled once more than it is emptied.
        let drawn = (first - 1) * size;
        let first_share = Share {
            into: first * size,
            drawn,
        };
        let second_share = Share {
            into: (fillings - first) * size,
            drawn: steps - drawn,
        };
        [first_share, second_share]
    }

    /// The S of a link in the order in which their entries come to the merger that feeds a
    /// buffer and makes so many steps; behind them those that stay in its inputs.
    fn course(&self, link: &Link, buffer: usize, steps: usize) -> Vec<usize> {
        if buffer >= link.k {
            return vec![buffer; steps];
        }
        let [first_share, second_share] = self.shares(link, buffer, steps);
        let first = self.course(link, 2 * buffer, first_share.into);
        let second = self.course(link, 2 * buffer + 1, second_share.into);
        let (first, first_rest) = first.split_at(first_share.drawn);
        let (second, second_rest) = second.split_at(second_share.drawn);
        [&self.in_turns(first, second), first_rest, second_rest].concat()
    }

    /// The second's last comes last, so that the first is filled again before it.
    fn in_turns(&self, first: &[usize], second: &[usize]) -> Vec<usize> {
        let (last, others) = second.split_at(second.len() - 1);
        let mut blocks = [first.chunks(self.block), others.chunks(self.block)];
        let mut course = Vec::new();
        while blocks.iter().any(|left| left.len() > 0) {
            for block in blocks.iter_mut().filter_map(Iterator::next) {
                course.extend_from_slice(block);
            }
        }
        course.extend_from_slice(last);
        course
    }
}

/// Due ticks say in what order the entries come out; the rest of them may be anything.
fn lay_course(rng: &mut Rng, buffers: &mut [Buffer], course: &[usize]) {
    for (tick, &s) in course.iter().enumerate() {
        buffers[s].push_back((tick as u64) << 32 | rng.below(1 << 26));
    }
}

/// A few entries in I and in inner buffers, which then are filled a little later.
fn add_few(rng: &mut Rng, queue: &mut Queue) {
    let in_insertion = rng.size(INSERTION_SLOTS);
    queue.insertion = (0..in_insertion).map(|_| rng.word()).collect();
    let also_inner = rng.one_in(2);
    for i in 1..=queue.links {
        for inner in &mut queue.buffers[i - 1][2..link(i).k] {
            if also_inner && rng.one_in(2) {
                inner.push_back(rng.below(2) * rng.word());
            }
        }
    }
}

/// More entries in each S, behind those that come out.
fn add_behind(rng: &mut Rng, queue: &mut Queue) {
    // With H held an insert is refused, so often one less is.
    let mut room = most_held(queue.links) - rng.size(2) - queue.held();
    for i in 1..=queue.links {
        let Link { k, s, .. } = *link(i);
        let mut lower_room = k * s - queue.held_in_link(i);
        for buffer in k..2 * k {
            let list = queue.buffer_mut(Place { link: i, buffer });
            let most = (s - list.len()).min(room).min(lower_room);
            let count = most.min(rng.size(s + 1));
            list.extend((0..count as u64).map(|tick| (tick << 32) + (1 << 63)));
            room -= count;
            lower_room -= count;
        }
    }
}

/// A queue whose next insert packs, mostly from S(L); with the plain one it reaches the
/// limit.
pub fn long_insert(rng: &mut Rng, links: usize, plain: bool) -> Queue {
    let mut queue = last_counters(links);
    let rising = plain || rng.one_in(2);
    let mut entries = (0..most_held(links) as u64 - 1).map(|tick| {
        let any = rng.word();
        if rising {
            tick << 32 | any >> 38
        } else {
            any
        }
    });
    queue.insertion = entries.by_ref().take(INSERTION_SLOTS - 1).collect();
    let Link { k, s, .. } = *link(links);
    for list in &mut queue.buffers[links - 1][k..] {
        *list = entries.by_ref().take(s).collect();
    }
    if !plain {
        move_some(rng, &mut queue);
    }
    queue
}

/// Moves some entries of S(L) to any buffers, from most of which their way is shorter.
fn move_some(rng: &mut Rng, queue: &mut Queue) {
    let last = queue.links;
    for _ in 0..rng.size(9) {
        let from = link(last).k + rng.size(link(last).k);
        let number = 1 + rng.size(stretches(last).len() - 1);
        if buffer(queue, number).len() < stretches(last)[number].capacity {
            let moved = queue.buffers[last - 1][from].pop_back();
            buffer_mut(queue, number).extend(moved);
        }
    }
}
