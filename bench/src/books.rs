//! The book: what the next insert will do, and the book test on chosen and random sound books.

use crate::library::{gorgalhut_book_sound, gorgalhut_held, gorgalhut_setup, memory};
use reference::rng::Rng;

/// k, s and the capacities of A and B, of the inner buffers of each level, of each link.
struct Link {
    k: usize,
    s: u64,
    ends: u64,
    inner: &'static [u64],
}

const LINKS: [Link; 4] = [
    Link {
        k: 2,
        s: 8,
        ends: 8,
        inner: &[],
    },
    Link {
        k: 4,
        s: 24,
        ends: 64,
        inner: &[8],
    },
    Link {
        k: 8,
        s: 120,
        ends: 512,
        inner: &[8, 23],
    },
    Link {
        k: 16,
        s: 1_080,
        ends: 4_096,
        inner: &[8, 64, 8],
    },
];

/// A buffer's word in the book's format (docs/BOOK.md).
fn word(count: u64, start: u64) -> u64 {
    count + 131_072 * start
}

const MARK: u64 = 65_536;

/// The word of buffer 0, I.
const INSERTION: usize = 8;

impl Link {
    /// The capacity of the link's buffer j: 0 is A, 1 is B, then the inner ones, from k on S.
    fn capacity(&self, j: usize) -> u64 {
        match j {
            0 | 1 => self.ends,
            _ if j >= self.k => self.s,
            _ => self.inner[j.ilog2() as usize - 1],
        }
    }

    /// The most that the link with this number holds in S.
    fn most(&self) -> u64 {
        self.k as u64 * self.s
    }
}

/// The word of the first buffer of the link with number i, from 0 on.
fn first(i: usize) -> usize {
    INSERTION + 1 + LINKS[..i].iter().map(|link| 2 * link.k).sum::<usize>()
}

/// Whether the next insert packs: I has seven, and every counter says that no S is free.
pub fn packs_next(links: usize, array: &[u64]) -> bool {
    let full = |(link, &counter): (&Link, &u64)| counter > link.k as u64;
    array[INSERTION] % MARK == 7 && LINKS[..links].iter().zip(&array[1..]).all(full)
}

/// A count for a buffer: often none, often all, at most `room`.
fn count(rng: &mut Rng, capacity: u64, room: u64) -> u64 {
    let most = capacity.min(room);
    match rng.below(4) {
        0 => 0,
        1 => most,
        _ => rng.below(most + 1),
    }
}

/// Any sound book of so many links, written over the array's first words.
fn random_book(rng: &mut Rng, links: usize, array: &mut [u64]) {
    array[0] = links as u64;
    // What may still be held.
    let mut left = LINKS[links - 1].most();
    let mut place = |rng: &mut Rng, capacity: u64, room: u64| {
        let held = count(rng, capacity, room.min(left));
        left -= held;
        (held, word(held, rng.below(capacity - held + 1)))
    };
    array[INSERTION] = place(rng, 8, 7).1;
    for (i, link) in LINKS[..links].iter().enumerate() {
        let used = rng.below(link.k as u64 + 1);
        array[1 + i] = used + 1;
        array[first(i)] = place(rng, link.ends, link.ends).1;
        let mut room = used * link.s;
        // S first: they may have all of it.
        for j in (1..2 * link.k).rev() {
            let unused = j >= link.k + used as usize;
            let (held, word) = place(rng, link.capacity(j), if unused { 0 } else { room });
            room -= held;
            array[first(i) + j] = word;
        }
    }
    // The last link first: what stands below A(i) is in link i and behind it.
    let mut behind = 0;
    for (i, link) in LINKS[..links].iter().enumerate().rev() {
        let mut below = vec![0; 2 * link.k];
        for j in (0..2 * link.k).rev() {
            let inputs = match j {
                0 => below[1] + behind,
                _ if j < link.k => below[2 * j] + below[2 * j + 1],
                _ => 0,
            };
            let at = first(i) + j;
            below[j] = array[at] % MARK + inputs;
            if below[j] == 0 && rng.below(2) == 0 {
                array[at] += MARK;
            }
        }
        behind = below[0];
    }
}

/// The book test on this book, as one call of the library; it must find it sound.
fn test(array: &[u64]) {
    // SAFETY: pointer and length are those of a slice.
    let sound = unsafe { gorgalhut_book_sound(array.as_ptr(), array.len()) };
    assert!(sound, "a book was not sound");
}

/// Makes an empty book.
fn empty_book(links: usize, array: &mut [u64]) {
    let (mut word, mut steps) = (0, 0);
    let (lent, words) = (array.as_mut_ptr(), array.len());
    // SAFETY: each pointer is of memory that is lent for the call.
    let answer = unsafe { gorgalhut_setup(lent, words, links as u64, &mut word, &mut steps) };
    assert_eq!(answer, 0, "setup was refused");
}

/// How many entries the book says are held.
fn held(array: &[u64]) -> u64 {
    let (mut word, mut steps) = (0, 0);
    // SAFETY: each pointer is of memory that is lent for the call.
    let answer = unsafe { gorgalhut_held(array.as_ptr(), array.len(), &mut word, &mut steps) };
    assert_eq!(answer, 0, "held was refused");
    word
}

/// Tests an empty book, one with every buffer marked, one with every S of the last link full, and then random ones; asks
/// the last one how many are held.
pub fn run(links: usize, books: usize, seed: u64) -> String {
    let mut array = memory(links).0;
    let buffers = INSERTION..first(links);
    empty_book(links, &mut array);
    test(&array);
    array[buffers.clone()].fill(MARK);
    test(&array);
    empty_book(links, &mut array);
    let last = &LINKS[links - 1];
    array[links] = last.k as u64 + 1;
    array[buffers.end - last.k..buffers.end].fill(last.s);
    test(&array);
    let mut rng = Rng::new(seed);
    for _ in 0..books {
        random_book(&mut rng, links, &mut array);
        test(&array);
    }
    format!("the last book holds {}", held(&array))
}
