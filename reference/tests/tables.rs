//! The tables of the requirement document, and two links beyond them.

use reference::links::{array_words, first_word, link, most_held, slots, Link};

/// Sizes of the inner buffers from B downwards, as (how many, of what size).
fn inner(link: &Link) -> Vec<(usize, usize)> {
    let mut groups = Vec::new();
    let mut first = 2;
    while first < link.k {
        let level = &link.capacities[first..2 * first];
        assert!(
            level.iter().all(|size| *size == level[0]),
            "one size a level"
        );
        groups.push((first, level[0]));
        first *= 2;
    }
    groups
}

fn check(number: usize, row: (usize, usize, usize, &[(usize, usize)], usize)) {
    let link = Link::compute(number);
    let (k, s, a_and_b, inner_sizes, slots) = row;
    assert_eq!((link.k, link.s), (k, s), "link {number}");
    assert_eq!(link.capacities.len(), 2 * k, "link {number}");
    assert_eq!(link.capacities[0..2], [a_and_b, a_and_b], "link {number}");
    assert_eq!(inner(&link), inner_sizes, "link {number}");
    assert_eq!(link.capacities[k..], vec![s; k], "link {number}");
    assert_eq!(link.slots, slots, "link {number}");
}

#[test]
fn link_table() {
    check(1, (2, 8, 8, &[], 32));
    check(2, (4, 24, 64, &[(2, 8)], 240));
    check(3, (8, 120, 512, &[(2, 8), (4, 23)], 2_092));
    check(4, (16, 1_080, 4_096, &[(2, 8), (4, 64), (8, 8)], 25_808));
}

#[test]
fn fifth_link() {
    let inner_sizes = [(2, 8), (4, 23), (8, 182), (16, 8)];
    check(5, (32, 18_360, 32_768, &inner_sizes, 654_748));
}

/// "Taking k(i) as 2 to the i: true in this table, wrong as a rule".
#[test]
fn sixth_link() {
    let link = Link::compute(6);
    assert_eq!((link.k, link.s), (128, 605_880));
}

#[test]
fn queue_table() {
    let rows = [
        (40, 296, 16),
        (280, 536, 96),
        (2_372, 2_628, 960),
        (28_180, 28_436, 17_280),
    ];
    for (index, row) in rows.into_iter().enumerate() {
        let links = index + 1;
        assert_eq!((slots(links), array_words(links), most_held(links)), row);
    }
}

/// "Slots lie in the order I, link 1, link 2, ..; inside a link A, B, inner
/// buffers, S": up to link 4 this is the order of the buffer numbers.
#[test]
fn layout_of_four_links() {
    // The book's 256 words and the 8 slots of I come first.
    let mut next = 264;
    for number in 1..=4 {
        for (buffer, size) in link(number).capacities.iter().enumerate() {
            assert_eq!(
                first_word(number, buffer),
                next,
                "link {number} buffer {buffer}"
            );
            next += size;
        }
        assert_eq!(next, array_words(number));
    }
}

/// "top tree, middle buffers, bottom trees, and so again within each": in link 6
/// each bottom tree lies together, which is no longer the order of the numbers.
#[test]
fn layout_of_the_sixth_link() {
    let link = Link::compute(6);
    // 7 levels: a top tree of 4, 16 middle buffers, bottom trees of 3 levels.
    assert_eq!(link.capacities[16..32], [1_449; 16]);
    let first_bottom = link.offsets[32];
    assert_eq!(first_bottom, link.offsets[31] + 1_449);
    assert_eq!(link.offsets[33], first_bottom + 8);
    let second_level: Vec<usize> = (0..4).map(|j| first_bottom + 16 + 23 * j).collect();
    assert_eq!(link.offsets[64..68], second_level);
    assert_eq!(link.offsets[34], first_bottom + 16 + 4 * 23);
    // The top tree is laid out so as well: 2 of 8, then 4 of 64, then 8 of 8.
    assert_eq!(
        link.capacities[2..16],
        [8, 8, 64, 64, 64, 64, 8, 8, 8, 8, 8, 8, 8, 8]
    );
    assert_eq!(link.offsets[16], link.offsets[15] + 8);
}
