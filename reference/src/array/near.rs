//! Books on the boundary of one rule, and just past it.

use super::built::{built_queue, random_array};
use super::{
    link_number, number, stretches, way_up, BufferWord, Rule, FIRST_BUFFER_WORD,
    FIRST_COUNTER_WORD, INSERTION_NUMBER, LINK_WORD,
};
use crate::links::{link, most_held};
use crate::queue::Place;
use crate::rng::Rng;

/// An array whose book is at the boundary of a rule; past it if `past` is true. The
/// entries that a raised count brings in are whatever lies in the slots.
pub fn near_array(rng: &mut Rng, links: usize, rule: Rule, past: bool) -> Vec<u64> {
    let queue = built_queue(rng, links);
    let mut words = random_array(rng, &queue);
    let mut book = Book::of(&mut words);
    match rule {
        Rule::LinkNumber => book.near_link_number(rng, past),
        Rule::Inside if rng.one_in(2) => book.near_end(rng, past),
        Rule::Inside => book.near_full(rng, past),
        Rule::Insertion => book.near_insertion(rng, past),
        Rule::Counter if rng.one_in(2) => book.near_least_counter(rng, past),
        Rule::Counter => book.near_most_counter(rng, past),
        Rule::Unused => book.near_unused(rng, past),
        Rule::LinkTotal => book.near_link_total(rng, past),
        Rule::Held => book.near_held(rng, past),
        Rule::Mark => book.near_mark(rng, past),
    }
    words
}

/// The book's words of an array with a sound link number.
pub struct Book<'a> {
    links: usize,
    words: &'a mut [u64],
}

impl Book<'_> {
    pub fn of(words: &mut [u64]) -> Book<'_> {
        let links = link_number(words).expect("a link number from 1 to 4");
        Book { links, words }
    }

    /// How many buffers there are.
    pub fn buffers(&self) -> usize {
        stretches(self.links).len()
    }

    pub fn capacity(&self, number: usize) -> usize {
        stretches(self.links)[number].capacity
    }

    pub fn get(&self, number: usize) -> BufferWord {
        BufferWord::read(self.words[FIRST_BUFFER_WORD + number])
    }

    pub fn set(&mut self, number: usize, said: BufferWord) {
        self.words[FIRST_BUFFER_WORD + number] = said.word();
    }

    pub fn c(&self, i: usize) -> usize {
        self.words[FIRST_COUNTER_WORD + i - 1] as usize
    }

    pub fn set_c(&mut self, i: usize, c: u64) {
        self.words[FIRST_COUNTER_WORD + i - 1] = c;
    }

    pub fn some_link(&self, rng: &mut Rng) -> usize {
        1 + rng.size(self.links)
    }

    pub fn some_buffer(&self, rng: &mut Rng) -> usize {
        rng.size(self.buffers())
    }

    /// The same start place if there is room for the count behind it.
    fn set_count(&mut self, number: usize, count: usize) {
        let mut said = self.get(number);
        said.count = count;
        said.start = said.start.min(self.capacity(number).saturating_sub(count));
        self.set(number, said);
    }

    fn clear_marks(&mut self) {
        for number in 0..self.buffers() {
            let said = self.get(number);
            self.set(
                number,
                BufferWord {
                    mark: false,
                    ..said
                },
            );
        }
    }

    /// Numbers of the buffers of a link from `from` to `to` - 1.
    fn numbers(&self, i: usize, from: usize, to: usize) -> Vec<usize> {
        let places = (from..to).map(|buffer| Place { link: i, buffer });
        places.map(number).collect()
    }

    /// B(i), inner buffers and those S of link i that may hold entries.
    fn lower_part(&self, i: usize) -> Vec<usize> {
        self.numbers(i, 1, link(i).k + self.c(i) - 1)
    }

    fn together(&self, numbers: &[usize]) -> usize {
        numbers.iter().map(|&number| self.get(number).count).sum()
    }

    /// Raises or lowers the counts of these buffers until they are `total` together,
    /// or as near as their capacities allow.
    fn bring_to(&mut self, rng: &mut Rng, numbers: &[usize], total: usize) {
        let mut order = numbers.to_vec();
        for at in 1..order.len() {
            order.swap(at, rng.size(at + 1));
        }
        let mut now = self.together(numbers);
        for number in order {
            let count = self.get(number).count;
            let wanted = (count + total).saturating_sub(now);
            let new = wanted.min(self.most(number));
            self.set_count(number, new);
            now = now - count + new;
        }
    }

    /// The most that one rule for this buffer alone allows.
    fn most(&self, number: usize) -> usize {
        match number {
            INSERTION_NUMBER => self.capacity(number) - 1,
            _ => self.capacity(number),
        }
    }

    fn near_link_number(&mut self, rng: &mut Rng, past: bool) {
        let links = self.links as u64;
        let wrong = [0, 5, 6, links + (1 << 32), links + (1 << 63), u64::MAX];
        if past {
            self.words[LINK_WORD] = wrong[rng.size(wrong.len())];
        }
    }

    /// The entries end with the buffer, or one slot behind it.
    fn near_end(&mut self, rng: &mut Rng, past: bool) {
        let number = self.some_buffer(rng);
        let mut said = self.get(number);
        said.start = self.capacity(number) - said.count + usize::from(past);
        self.set(number, said);
    }

    /// As many entries as slots, or one more; other rules may not allow them.
    fn near_full(&mut self, rng: &mut Rng, past: bool) {
        self.clear_marks();
        let i = self.some_link(rng);
        let lower = self.lower_part(i);
        let number = if lower.is_empty() || rng.one_in(4) {
            self.numbers(i, 0, 1)[0]
        } else {
            lower[rng.size(lower.len())]
        };
        // The others of the link make room as far as they can.
        let others: Vec<usize> = lower.iter().copied().filter(|&n| n != number).collect();
        let room = ((self.c(i) - 1) * link(i).s).saturating_sub(self.capacity(number) + 1);
        let keep = self.together(&others).min(room);
        self.bring_to(rng, &others, keep);
        let said = BufferWord {
            count: self.capacity(number) + usize::from(past),
            ..BufferWord::default()
        };
        self.set(number, said);
    }

    /// "I at most 7": it has 8 slots, so the eighth is inside.
    fn near_insertion(&mut self, rng: &mut Rng, past: bool) {
        let all: Vec<usize> = (1..self.buffers()).collect();
        let room = most_held(self.links) - 8;
        let keep = self.together(&all).min(room);
        self.bring_to(rng, &all, keep);
        let said = BufferWord {
            count: 7 + usize::from(past),
            ..BufferWord::default()
        };
        self.set(INSERTION_NUMBER, said);
    }

    /// A counter of 1 over an empty lower part, or of 0.
    fn near_least_counter(&mut self, rng: &mut Rng, past: bool) {
        let i = self.some_link(rng);
        for number in self.lower_part(i) {
            self.set_count(number, 0);
        }
        self.set_c(i, u64::from(!past));
    }

    /// A counter of k+1, or more.
    fn near_most_counter(&mut self, rng: &mut Rng, past: bool) {
        let i = self.some_link(rng);
        let k = link(i).k as u64;
        let wrong = [k + 2, k + 2, k + 3, k + 1 + (1 << 32), u64::MAX];
        let c = if past {
            wrong[rng.size(wrong.len())]
        } else {
            k + 1
        };
        self.set_c(i, c);
    }

    /// One entry in the last S that may have some, or in one that may not.
    fn near_unused(&mut self, rng: &mut Rng, past: bool) {
        self.clear_marks();
        let i = self.some_link(rng);
        let k = link(i).k;
        if self.c(i) == k + 1 {
            let last = self.numbers(i, 2 * k - 1, 2 * k)[0];
            self.set_count(last, 0);
            self.set_c(i, k as u64);
        }
        let c = self.c(i);
        // Some room is left, so that this rule alone is broken.
        let lower = self.lower_part(i);
        let most = ((c - 1) * link(i).s).saturating_sub(1);
        let keep = self.together(&lower).min(most);
        self.bring_to(rng, &lower, keep);
        let s = if past { c + rng.size(k + 1 - c) } else { c - 1 };
        if s > 0 {
            let number = self.numbers(i, k + s - 1, k + s)[0];
            self.set_count(number, 1.max(self.get(number).count));
        }
    }

    /// "B(i), inner buffers and S of link i together at most (c(i)-1) x s(i)".
    fn near_link_total(&mut self, rng: &mut Rng, past: bool) {
        self.clear_marks();
        let i = self.some_link(rng);
        // With its last counter the last link would break H as well.
        if i == self.links && self.c(i) == link(i).k + 1 {
            let k = link(i).k;
            let last = self.numbers(i, 2 * k - 1, 2 * k)[0];
            self.set_count(last, 0);
            self.set_c(i, k as u64);
        }
        let total = (self.c(i) - 1) * link(i).s + usize::from(past);
        let mut lower = self.lower_part(i);
        // The others make room for it.
        let rest: Vec<usize> = (0..self.buffers()).filter(|n| !lower.contains(n)).collect();
        let room = most_held(self.links).saturating_sub(total);
        let keep = self.together(&rest).min(room);
        self.bring_to(rng, &rest, keep);
        if lower.is_empty() {
            lower = self.numbers(i, 1, 2);
        }
        self.bring_to(rng, &lower, total);
    }

    /// "at most H held".
    fn near_held(&mut self, rng: &mut Rng, past: bool) {
        self.clear_marks();
        for i in 1..=self.links {
            self.set_c(i, link(i).k as u64 + 1);
        }
        let total = most_held(self.links) + usize::from(past);
        // The lower parts keep what they have; the last is brought to the rest.
        let last = self.lower_part(self.links);
        let others: Vec<usize> = (0..self.buffers()).filter(|n| !last.contains(n)).collect();
        // One at least stays outside, else the last link's own rule is broken.
        let outside = self.together(&others);
        let outside = outside.clamp(1, most_held(self.links));
        self.bring_to(rng, &others, outside);
        let outside = self.together(&others);
        self.bring_to(rng, &last, total - outside);
    }

    /// Marks beside the way of a single entry, or one on its way.
    fn near_mark(&mut self, rng: &mut Rng, past: bool) {
        if rng.one_in(2) {
            self.leave_one_entry(rng);
        }
        let filled: Vec<usize> = (0..self.buffers())
            .filter(|&number| self.get(number).count > 0)
            .collect();
        if filled.is_empty() {
            return;
        }
        let number = filled[rng.size(filled.len())];
        let way = self.way(number);
        let marked = if past {
            way[rng.size(way.len())]
        } else {
            let allowed = |&n: &usize| filled.iter().all(|&f| !self.way(f).contains(&n));
            let free: Vec<usize> = (0..self.buffers()).filter(allowed).collect();
            match free.len() {
                0 => return,
                many => free[rng.size(many)],
            }
        };
        let said = self.get(marked);
        self.set(marked, BufferWord { mark: true, ..said });
    }

    /// Numbers from a buffer to A(1); I's way is I.
    fn way(&self, from: usize) -> Vec<usize> {
        match stretches(self.links)[from].place {
            None => vec![from],
            Some(place) => way_up(place).map(number).collect(),
        }
    }

    /// Empties all buffers but one, and lets every S have entries.
    fn leave_one_entry(&mut self, rng: &mut Rng) {
        self.clear_marks();
        for i in 1..=self.links {
            self.set_c(i, link(i).k as u64 + 1);
        }
        for number in 0..self.buffers() {
            self.set_count(number, 0);
        }
        let number = self.some_buffer(rng);
        self.set_count(number, 1);
    }
}
