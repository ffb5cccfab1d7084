//! How long one call can run, and the bounds of demand 3, from the sizes of the links.
//!
//! Quotes that begin with R are from document 02.

use crate::links::{array_words, link, most_held, Link, INSERTION_SLOTS, MOST_LINKS, MOST_PRINTED};

/// Levels of a link's merger tree: k is 2 to this power.
fn height(link: &Link) -> usize {
    link.k.ilog2() as usize
}

/// R-9: "at most 16 merge steps with one link, 224 with two and 2,396 with three, from
/// one formula over links and buffer sizes." A look fills as a take does.
pub fn longest_take(links: usize) -> u64 {
    (1..=links).map(|i| most_into(link(i))).sum::<usize>() as u64
}

/// The most merge steps into the buffers of one link while A(1) is filled.
fn most_into(link: &Link) -> usize {
    // A and B are filled once at most.
    let mut steps = link.capacities[0] + link.capacities[1];
    let mut inner = 0;
    for level in 1..height(link) {
        let buffers = &link.capacities[1 << level..2 << level];
        inner += buffers.iter().sum::<usize>();
        // What comes into a level goes on to B, or is left there or in a level above.
        steps += link.capacities[1] + inner;
    }
    steps
}

/// R-14: "An entry owes the merge steps from its buffer to A(1): [..] i in B(i), one more
/// for each level below". This is what it owes in an S of link i.
fn owed_in_s(i: usize) -> u64 {
    (i + height(link(i))) as u64
}

/// The most merge steps of one insert: a packing takes out H entries at most, and the 8 in
/// I come out without a step.
pub fn longest_insert(links: usize) -> u64 {
    owed_in_s(links) * (most_held(links) - INSERTION_SLOTS) as u64
}

/// Document 01, "steps bound": the steps for each accepted insert.
///
/// R-14: "A sweep to i charges what its new entries in S(i, c(i)) owe plus what A(1) to
/// A(i-1) owe after it"; there is one such sweep in s(i) inserts at most.
pub fn per_insert(links: usize) -> u64 {
    // In parts of an insert that all s(i) divide: each s(i) divides the next.
    let parts = link(links).s as u64;
    let charged = |i: usize| owed_in_s(i) * parts + owed_above(i) * parts / link(i).s as u64;
    (1..=links).map(charged).sum::<u64>().div_ceil(parts)
}

/// What A(1) to A(i-1) owe if they are full: "i-1 in A(i)".
fn owed_above(i: usize) -> u64 {
    let in_a = |j: usize| (j - 1) * link(j).capacities[0];
    (1..i).map(in_a).sum::<usize>() as u64
}

/// Document 01, "steps bound": the steps for each packing, as if all H lay in S(L).
pub fn per_packing(links: usize) -> u64 {
    owed_in_s(links) * most_held(links) as u64
}

/// One line for each number of links.
pub fn text() -> String {
    (1..=MOST_PRINTED).map(line).collect()
}

fn line(links: usize) -> String {
    let take = longest_take(links);
    if links > MOST_LINKS {
        return format!("links {links}  longest take {take}\n");
    }
    let (array, held) = (array_words(links), most_held(links));
    let (insert, packing) = (longest_insert(links), per_packing(links));
    let each = per_insert(links);
    format!("links {links}  array {array}  work {held}  entries {held}  longest take {take}  longest insert {insert}  per insert {each}  per packing {packing}\n")
}
