//! Random changes of a sound book's words.

use super::near::Book;
use super::{FIRST_BUFFER_WORD, LINK_WORD};
use crate::links::link;
use crate::rng::Rng;

/// Makes one to three changes. Not every one breaks a rule.
pub fn damage(rng: &mut Rng, words: &mut [u64]) {
    let changes = 1 + rng.size(3);
    for _ in 1..changes {
        change(rng, words);
    }
    // The link number comes last, since the other changes go by it.
    if rng.one_in(8) {
        words[LINK_WORD] = some_link_number(rng);
    } else {
        change(rng, words);
    }
}

fn change(rng: &mut Rng, words: &mut [u64]) {
    match rng.below(8) {
        0 => some_word(rng, words),
        1 => change_counter(rng, words),
        2 => swap_buffers(rng, words),
        _ => change_buffer(rng, words),
    }
}

/// One of 1 to 4, one beside them, a huge one or any.
fn some_link_number(rng: &mut Rng) -> u64 {
    match rng.below(4) {
        0 => rng.below(8),
        1 => 1 + rng.below(3),
        2 => (1 + rng.below(4)) << rng.below(64),
        _ => rng.word(),
    }
}

/// Any change of a counter's or a buffer's word.
fn some_word(rng: &mut Rng, words: &mut [u64]) {
    let buffers = Book::of(words).buffers();
    let at = 1 + rng.size(FIRST_BUFFER_WORD + buffers - 1);
    words[at] = match rng.below(6) {
        0 => rng.word(),
        1 => words[at] ^ (1 << rng.below(64)),
        2 => words[at].wrapping_add(1),
        3 => words[at].wrapping_sub(1),
        4 => rng.below(20),
        _ => words[1 + rng.size(FIRST_BUFFER_WORD + buffers - 1)],
    };
}

fn change_counter(rng: &mut Rng, words: &mut [u64]) {
    let mut book = Book::of(words);
    let i = book.some_link(rng);
    let c = book.c(i) as u64;
    let k = link(i).k as u64;
    let new = match rng.below(6) {
        0 => 0,
        1 => k + 2,
        2 => c.wrapping_sub(1),
        3 => c.wrapping_add(1),
        4 => rng.below(k + 4),
        _ => rng.word() >> rng.below(64),
    };
    book.set_c(i, new);
}

fn swap_buffers(rng: &mut Rng, words: &mut [u64]) {
    let mut book = Book::of(words);
    let (one, other) = (book.some_buffer(rng), book.some_buffer(rng));
    let (said, instead) = (book.get(one), book.get(other));
    book.set(one, instead);
    book.set(other, said);
}

fn change_buffer(rng: &mut Rng, words: &mut [u64]) {
    let mut book = Book::of(words);
    let number = book.some_buffer(rng);
    let mut said = book.get(number);
    let capacity = book.capacity(number);
    match rng.below(10) {
        0..=4 => said.count = wrong_count(rng, said.count, capacity),
        5..=7 => said.start = wrong_start(rng, said.start, capacity),
        _ => said.mark = !said.mark,
    }
    book.set(number, said);
}

fn wrong_count(rng: &mut Rng, count: usize, capacity: usize) -> usize {
    match rng.below(5) {
        0 => capacity + 1,
        1 => rng.size(2 * capacity),
        // The largest count that the word has bits for, or near it.
        2 => 0xFFFF - rng.size(3),
        3 => (count + 1).min(0xFFFF),
        _ => count.saturating_sub(1),
    }
}

fn wrong_start(rng: &mut Rng, start: usize, capacity: usize) -> usize {
    match rng.below(3) {
        0 => rng.size(2 * capacity),
        // The largest start place that the word has bits for, or near it.
        1 => (1 << 47) - 1 - rng.size(2 * capacity),
        _ => start.saturating_sub(1),
    }
}
