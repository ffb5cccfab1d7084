//! The lent array as words: the format of the book, its rules and the slots.
//!
//! Quotes are document 01's. Those that begin with BOOK are from docs/BOOK.md, the
//! page that says how the words are laid out.

pub mod built;
pub mod calls;
pub mod damage;
pub mod generate;
pub mod longest;
pub mod near;

use crate::links::{array_words, link, most_held, BOOK_WORDS, INSERTION_SLOTS, MOST_LINKS};
use crate::queue::{a, Buffer, Place, Queue};
use std::sync::OnceLock;

/// BOOK: word 0 is "the link number L, 1 to 4".
pub const LINK_WORD: usize = 0;

/// BOOK: words "1 to 4" are "the counters c(1) to c(4)".
pub const FIRST_COUNTER_WORD: usize = 1;

/// BOOK: word "8 + n" is "the word of buffer number n".
pub const FIRST_BUFFER_WORD: usize = 8;

/// BOOK: "I is 0."
pub const INSERTION_NUMBER: usize = 0;

/// What a buffer's word says.
#[derive(Clone, Copy, Debug, Default, PartialEq, Eq)]
pub struct BufferWord {
    pub count: usize,
    pub mark: bool,
    pub start: usize,
}

impl BufferWord {
    /// BOOK: bits "0 to 15 | the count", "16 | the mark", "17 to 63 | the start place".
    pub fn read(word: u64) -> BufferWord {
        BufferWord {
            count: (word & 0xFFFF) as usize,
            mark: (word >> 16) & 1 == 1,
            start: (word >> 17) as usize,
        }
    }

    /// BOOK: "the word is count + 65,536 x mark + 131,072 x start place".
    pub fn word(self) -> u64 {
        self.count as u64 + 65_536 * u64::from(self.mark) + 131_072 * self.start as u64
    }
}

/// Where a buffer lies: in the tree, and its slots in the array.
#[derive(Clone, Copy, Debug, PartialEq, Eq)]
pub struct Stretch {
    /// None is I: "I stands outside the tree."
    pub place: Option<Place>,
    /// The word of the array that is its first slot.
    pub first: usize,
    pub capacity: usize,
}

/// BOOK: "first(1) = 1, first(i+1) = first(i) + 2k(i)".
pub fn first_number(i: usize) -> usize {
    1 + (1..i).map(|lower| 2 * link(lower).k).sum::<usize>()
}

/// BOOK: "Within a link, buffer j is number first(i) + j".
pub fn number(place: Place) -> usize {
    first_number(place.link) + place.buffer
}

/// BOOK: "Slots begin at word 256, in the order of the buffers' numbers, each
/// buffer with as many slots as its capacity".
fn all_stretches() -> Vec<Stretch> {
    let places = (1..=MOST_LINKS)
        .flat_map(|i| (0..2 * link(i).k).map(move |buffer| Place { link: i, buffer }));
    let mut first = BOOK_WORDS + INSERTION_SLOTS;
    let mut list = vec![Stretch {
        place: None,
        first: BOOK_WORDS,
        capacity: INSERTION_SLOTS,
    }];
    for place in places {
        let capacity = link(place.link).capacities[place.buffer];
        list.push(Stretch {
            place: Some(place),
            first,
            capacity,
        });
        first += capacity;
    }
    list
}

/// I and every buffer of links 1 to `links`, by number.
pub fn stretches(links: usize) -> &'static [Stretch] {
    static ALL: OnceLock<Vec<Stretch>> = OnceLock::new();
    &ALL.get_or_init(all_stretches)[..first_number(links + 1)]
}

/// The next buffer on the way to A(1).
pub fn above(place: Place) -> Option<Place> {
    let Place { link: i, buffer } = place;
    match buffer {
        0 if i == 1 => None,
        0 => Some(a(i - 1)),
        // Merger n has the inputs 2n and 2n+1, and halving B's 1 gives A's 0.
        _ => Some(Place {
            link: i,
            buffer: buffer / 2,
        }),
    }
}

/// A buffer and all others on its way to A(1).
pub fn way_up(place: Place) -> impl Iterator<Item = Place> {
    std::iter::successors(Some(place), |&lower| above(lower))
}

/// One buffer as the array has it.
#[derive(Clone, Copy, Debug, PartialEq, Eq)]
pub struct DecodedBuffer<'a> {
    pub word: BufferWord,
    /// None if the entries would lie outside the array.
    pub entries: Option<&'a [u64]>,
}

/// An array as its words say, sound or not.
#[derive(Clone, Debug, PartialEq, Eq)]
pub struct Decoded<'a> {
    pub links: u64,
    /// c(1) to c(L); none if the link number is out of range.
    pub c: Vec<u64>,
    /// By number; none if the link number is out of range.
    pub buffers: Vec<DecodedBuffer<'a>>,
}

/// The link number, if it is 1 to 4.
pub fn link_number(words: &[u64]) -> Option<usize> {
    let number = *words.get(LINK_WORD)?;
    (1..=MOST_LINKS as u64)
        .contains(&number)
        .then_some(number as usize)
}

/// Reads the book and the entries. A word that the array lacks reads as 0.
pub fn decode(words: &[u64]) -> Decoded<'_> {
    let word = |at: usize| words.get(at).copied().unwrap_or(0);
    let links = link_number(words);
    let decode_buffer = |(number, stretch): (usize, &Stretch)| {
        let said = BufferWord::read(word(FIRST_BUFFER_WORD + number));
        let begin = stretch.first + said.start;
        DecodedBuffer {
            word: said,
            entries: words.get(begin..begin + said.count),
        }
    };
    Decoded {
        links: word(LINK_WORD),
        c: (0..links.unwrap_or(0))
            .map(|index| word(FIRST_COUNTER_WORD + index))
            .collect(),
        buffers: links.map_or(Vec::new(), |links| {
            let numbered = stretches(links).iter().enumerate();
            numbered.map(decode_buffer).collect()
        }),
    }
}

impl Decoded<'_> {
    /// The queue in the array; none if a part of it cannot be had.
    pub fn queue(&self) -> Option<Queue> {
        let links = self.c.len();
        if links == 0 {
            return None;
        }
        let mut queue = Queue::set_up(links);
        for (c, &word) in queue.c.iter_mut().zip(&self.c) {
            *c = usize::try_from(word).ok()?;
        }
        for (number, buffer) in self.buffers.iter().enumerate() {
            *buffer_mut(&mut queue, number) = buffer.entries?.to_vec().into();
        }
        Some(queue)
    }

    /// True if link number, counters and every buffer's entries are the queue's.
    pub fn is_queue(&self, queue: &Queue) -> bool {
        let same_entries = |(number, decoded): (usize, &DecodedBuffer)| {
            let entries = decoded.entries;
            entries.is_some_and(|entries| *buffer(queue, number) == entries)
        };
        self.links == queue.links as u64
            && self.c.iter().copied().eq(queue.c.iter().map(|&c| c as u64))
            && self.buffers.iter().enumerate().all(same_entries)
    }

    fn count(&self, place: Place) -> usize {
        self.buffers[number(place)].word.count
    }

    /// Counts of the buffers from `from` to `to` - 1 of a link, together.
    fn together(&self, i: usize, from: usize, to: usize) -> usize {
        let places = (from..to).map(|buffer| Place { link: i, buffer });
        places.map(|place| self.count(place)).sum()
    }
}

/// A queue's buffer by its number.
pub fn buffer(queue: &Queue, number: usize) -> &Buffer {
    match stretches(queue.links)[number].place {
        None => &queue.insertion,
        Some(place) => queue.buffer(place),
    }
}

pub fn buffer_mut(queue: &mut Queue, number: usize) -> &mut Buffer {
    match stretches(queue.links)[number].place {
        None => &mut queue.insertion,
        Some(place) => queue.buffer_mut(place),
    }
}

/// The book rules one by one.
#[derive(Clone, Copy, Debug, PartialEq, Eq, PartialOrd, Ord)]
pub enum Rule {
    /// "link number 1 to 4"
    LinkNumber,
    /// "every count and start place inside its buffer"
    Inside,
    /// "I at most 7"
    Insertion,
    /// "c(i) from 1 to k(i)+1"
    Counter,
    /// "S(i,j) empty for j at or above c(i)"
    Unused,
    /// "B(i), inner buffers and S of link i together at most (c(i)-1) x s(i)"
    LinkTotal,
    /// "at most H held"
    Held,
    /// "marks as said"
    Mark,
}

pub const RULES: [Rule; 8] = [
    Rule::LinkNumber,
    Rule::Inside,
    Rule::Insertion,
    Rule::Counter,
    Rule::Unused,
    Rule::LinkTotal,
    Rule::Held,
    Rule::Mark,
];

impl Decoded<'_> {
    /// Whether the book keeps one rule, whatever the others.
    pub fn keeps(&self, rule: Rule) -> bool {
        let links = self.c.len();
        // Without a link number the book says nothing else.
        if links == 0 {
            return rule != Rule::LinkNumber;
        }
        match rule {
            Rule::LinkNumber => true,
            Rule::Inside => self.inside(links),
            Rule::Insertion => self.buffers[INSERTION_NUMBER].word.count <= 7,
            Rule::Counter => {
                (1..=links).all(|i| (1..=link(i).k as u64 + 1).contains(&self.c[i - 1]))
            }
            Rule::Unused => (1..=links).all(|i| self.unused_empty(i)),
            Rule::LinkTotal => (1..=links).all(|i| self.lower_part_inside(i)),
            Rule::Held => {
                let counts = self.buffers.iter().map(|buffer| buffer.word.count);
                counts.sum::<usize>() <= most_held(links)
            }
            Rule::Mark => self.marks_over_nothing(links),
        }
    }

    /// BOOK: "start place plus count is at most the capacity, for I (capacity 8) as
    /// for every other buffer."
    fn inside(&self, links: usize) -> bool {
        let mut both = self.buffers.iter().zip(stretches(links));
        both.all(|(buffer, stretch)| buffer.word.start + buffer.word.count <= stretch.capacity)
    }

    fn unused_empty(&self, i: usize) -> bool {
        let k = link(i).k;
        // S(i,j) is buffer k+j-1; a counter of 0 leaves every S unused.
        let used = usize::try_from(self.c[i - 1].saturating_sub(1)).unwrap_or(k);
        self.together(i, k + used.min(k), 2 * k) == 0
    }

    fn lower_part_inside(&self, i: usize) -> bool {
        let most = self.c[i - 1].saturating_sub(1);
        let most = most.saturating_mul(link(i).s as u64);
        self.together(i, 1, 2 * link(i).k) as u64 <= most
    }

    /// BOOK: "a buffer with the mark has count 0, and so has every buffer below it in
    /// the tree [..]. A mark on I only says that I is empty". Seen from below: no mark
    /// on a buffer that has an entry, nor on its way to A(1).
    fn marks_over_nothing(&self, links: usize) -> bool {
        let marked = |place| self.buffers[number(place)].word.mark;
        let mut both = self.buffers.iter().zip(stretches(links));
        both.all(|(buffer, stretch)| match stretch.place {
            _ if buffer.word.count == 0 => true,
            None => !buffer.word.mark,
            Some(place) => !way_up(place).any(marked),
        })
    }
}

/// The book rules that an array's book breaks; the array has at least 256 words.
pub fn broken_rules(words: &[u64]) -> Vec<Rule> {
    let book = decode(words);
    RULES
        .into_iter()
        .filter(|&rule| !book.keeps(rule))
        .collect()
}

/// Whether there is a book and it keeps every book rule. Slots do not matter.
pub fn verdict(words: &[u64]) -> bool {
    let book = decode(words);
    words.len() >= BOOK_WORDS && RULES.into_iter().all(|rule| book.keeps(rule))
}

/// Lays a queue into an array, by number its start places and marks. Free slots,
/// unused book words and words past the stated length stay as they are.
pub fn lay(queue: &Queue, starts: &[usize], marks: &[bool], words: &mut [u64]) {
    words[LINK_WORD] = queue.links as u64;
    for (index, &c) in queue.c.iter().enumerate() {
        words[FIRST_COUNTER_WORD + index] = c as u64;
    }
    for (number, stretch) in stretches(queue.links).iter().enumerate() {
        let entries = buffer(queue, number);
        let said = BufferWord {
            count: entries.len(),
            mark: marks[number],
            start: starts[number],
        };
        words[FIRST_BUFFER_WORD + number] = said.word();
        let slots = &mut words[stretch.first + said.start..][..said.count];
        for (slot, &entry) in slots.iter_mut().zip(entries) {
            *slot = entry;
        }
    }
}

/// An array of exactly the stated length, zeros where the queue says nothing.
pub fn encode(queue: &Queue, starts: &[usize], marks: &[bool]) -> Vec<u64> {
    let mut words = vec![0; array_words(queue.links)];
    lay(queue, starts, marks, &mut words);
    words
}
