//! Links: k, s, buffer sizes and layout, computed from the rule.
//!
//! Buffers of a link are numbered 0 for A, 1 for B, 2 to k-1 for the inner
//! buffers from B downwards, level by level and left to right, and k to 2k-1
//! for S(i,1) to S(i,k). Merger n, 1 to k-1, puts out into buffer n and has the
//! inputs 2n and 2n+1. All numbers are exact; link 9 is the last that fits.

use std::sync::OnceLock;

/// "The insertion buffer I has 8 slots."
pub const INSERTION_SLOTS: usize = 8;

/// "The first 256 words are the book".
pub const BOOK_WORDS: usize = 256;

/// "A queue of L links (1 to 4)".
pub const MOST_LINKS: usize = 4;

/// The sizes of one link and where its buffers lie in it.
#[derive(Clone, Debug, PartialEq, Eq)]
pub struct Link {
    pub k: usize,
    pub s: usize,
    /// Slots of each buffer, by buffer number.
    pub capacities: Vec<usize>,
    /// First slot of each buffer within the link, by buffer number.
    pub offsets: Vec<usize>,
    /// "slots in link".
    pub slots: usize,
}

/// "k(i) is the least power of two whose cube is at least s(i)."
pub fn k_for(s: usize) -> usize {
    let mut k: usize = 1;
    while k.pow(3) < s {
        k *= 2;
    }
    k
}

/// "(k1, s1) = (2, 8); s(i+1) = s(i) x (k(i) + 1)".
pub fn s_of(number: usize) -> usize {
    let mut s = 8;
    for _ in 1..number {
        s *= k_for(s) + 1;
    }
    s
}

/// Document 002: the middle edges "have associated buffers of size ⌈k^{3/2}⌉".
fn middle_size(k: usize) -> usize {
    // The least whole number whose square is at least the cube of k.
    let mut size = 1;
    while size * size < k.pow(3) {
        size += 1;
    }
    size
}

/// Document 002: "first the top tree, then the middle buffers, and finally the
/// bottom trees, and this layout is applied recursively within the top and each
/// of the bottom trees."
///
/// Lists the inner buffers of the merger tree of `levels` levels under merger
/// `root` in their layout order, each as its number and its size.
fn inner_buffers(root: usize, levels: u32) -> Vec<(usize, usize)> {
    // A lone binary merger has no inner buffer.
    if levels == 1 {
        return Vec::new();
    }
    // "the top tree [is] all nodes of depth at most ⌈i/2⌉", the root's depth being 1.
    let top_levels = levels.div_ceil(2);
    let middle = (root << top_levels)..((root + 1) << top_levels);
    let size = middle_size(1 << levels);
    let mut list = inner_buffers(root, top_levels);
    list.extend(middle.clone().map(|number| (number, size)));
    for bottom_root in middle {
        list.extend(inner_buffers(bottom_root, levels - top_levels));
    }
    list
}

/// "inside a link A, B, inner buffers, S": numbers and sizes in layout order.
fn layout(k: usize, s: usize) -> Vec<(usize, usize)> {
    // Document 002: "The size of both A_i and B_i is k_i^3".
    let mut list = vec![(0, k.pow(3)), (1, k.pow(3))];
    list.extend(inner_buffers(1, k.ilog2()));
    list.extend((k..2 * k).map(|number| (number, s)));
    list
}

impl Link {
    /// "Each link's sizes belong to its link number as fixed numbers."
    pub fn compute(number: usize) -> Link {
        let s = s_of(number);
        let k = k_for(s);
        let mut capacities = vec![0; 2 * k];
        let mut offsets = vec![0; 2 * k];
        let mut slots = 0;
        for (buffer, size) in layout(k, s) {
            capacities[buffer] = size;
            offsets[buffer] = slots;
            slots += size;
        }
        Link {
            k,
            s,
            capacities,
            offsets,
            slots,
        }
    }
}

/// "Print the formula's value for four and five links."
pub const MOST_PRINTED: usize = 5;

/// The link of this number, 1 to 5, computed once; the fifth is only counted with.
pub fn link(number: usize) -> &'static Link {
    static LINKS: OnceLock<Vec<Link>> = OnceLock::new();
    let links = LINKS.get_or_init(|| (1..=MOST_PRINTED).map(Link::compute).collect());
    &links[number - 1]
}

/// "Slots lie in the order I, link 1, link 2, .."
pub fn slots(links: usize) -> usize {
    INSERTION_SLOTS + (1..=links).map(|i| link(i).slots).sum::<usize>()
}

/// The word of the lent array where a buffer's first slot lies; I's is word 256.
pub fn first_word(number: usize, buffer: usize) -> usize {
    BOOK_WORDS + slots(number - 1) + link(number).offsets[buffer]
}

/// "array words": the book and the slots.
pub fn array_words(links: usize) -> usize {
    BOOK_WORDS + slots(links)
}

/// "A queue of L links (1 to 4) holds at most H = k(L) x s(L) entries."
pub fn most_held(links: usize) -> usize {
    link(links).k * link(links).s
}
