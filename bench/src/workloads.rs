//! The workloads, the same for every queue. Entries are made one by one as they are needed: none is read from memory.

use crate::queues::Queue;
use reference::rng::Rng;

/// Ticks of a day, 0.1 ms each.
const DAY: u64 = 864_000_000;

/// In `hold` an order is followed by one that is due less than this many ticks later: two seconds.
const NEXT: u64 = 20_000;

/// Makes entries, each with a command number of its own (up to 2 to the 24), and sums up what was handed out.
struct Orders {
    rng: Rng,
    command: u64,
    sum: u64,
}

impl Orders {
    fn new(seed: u64) -> Orders {
        Orders {
            rng: Rng::new(seed),
            command: 0,
            sum: 0,
        }
    }

    /// An entry due less than `within` ticks after `tick`.
    fn after(&mut self, tick: u64, within: u64) -> u64 {
        let due = tick + self.rng.below(within);
        let door = self.rng.below(3);
        self.command = (self.command + 1) % (1 << 24);
        due << 32 | door << 24 | self.command
    }

    /// Takes an entry in; the order in which entries come makes a difference.
    fn see(&mut self, entry: u64) {
        self.sum = self.sum.rotate_left(5).wrapping_mul(0x9E37_79B9_7F4A_7C15) ^ entry;
    }
}

/// A put that is counted: the counter looks for this function's name.
#[inline(never)]
fn counted_put<Q: Queue>(queue: &mut Q, entry: u64) {
    queue.put(entry);
}

/// A put that is counted and packs: the counter tells apart what happens in here.
#[inline(never)]
fn packing_put<Q: Queue>(queue: &mut Q, entry: u64) {
    counted_put(queue, entry);
    // Something must stand behind the call, or it would be a jump.
    std::hint::black_box(());
}

/// One put of either sort.
fn put<Q: Queue>(queue: &mut Q, entry: u64) {
    if queue.packs_next() {
        packing_put(queue, entry);
    } else {
        counted_put(queue, entry);
    }
}

/// A take that is counted.
#[inline(never)]
fn counted_take<Q: Queue>(queue: &mut Q) -> u64 {
    queue.take()
}

/// At a steady number held: take one, put one due later than it. Filling, and two turns of all that is held, are not counted.
pub fn hold(queue: &mut impl Queue, held: usize, rounds: usize, seed: u64) -> u64 {
    let mut orders = Orders::new(seed);
    queue.clear();
    for _ in 0..held {
        queue.put(orders.after(0, NEXT));
    }
    for _ in 0..2 * held {
        let entry = queue.take();
        orders.see(entry);
        queue.put(orders.after(entry >> 32, NEXT));
    }
    for _ in 0..rounds {
        let entry = counted_take(queue);
        orders.see(entry);
        put(queue, orders.after(entry >> 32, NEXT));
    }
    orders.sum
}

/// So many days: from an empty queue on, put in all orders of a day, then take them out.
pub fn day(queue: &mut impl Queue, held: usize, rounds: usize, seed: u64) -> u64 {
    let mut orders = Orders::new(seed);
    for _ in 0..rounds {
        queue.clear();
        for _ in 0..held {
            put(queue, orders.after(0, DAY));
        }
        for _ in 0..held {
            let entry = counted_take(queue);
            orders.see(entry);
        }
    }
    orders.sum
}
