//! The lent array as words: format, decoding, encoding, book rules.

mod common;

use common::random_sound_queue;
use reference::array::built::{garbage, random_array, random_marks, random_starts};
use reference::array::{
    above, broken_rules, buffer, decode, encode, first_number, lay, link_number, number, stretches,
    verdict, way_up, BufferWord, Rule,
};
use reference::links::{array_words, first_word, link};
use reference::queue::{book_sound, inputs, mark_allowed, Place, Queue};
use reference::rng::Rng;

const MARK: u64 = 1 << 16;

fn place(link: usize, buffer: usize) -> Place {
    Place { link, buffer }
}

/// A queue in an array at the front of every buffer, no marks.
fn plain_array(queue: &Queue) -> Vec<u64> {
    let many = stretches(queue.links).len();
    encode(queue, &vec![0; many], &vec![false; many])
}

/// An empty queue of so many links whose counters allow every S.
fn open_array(links: usize) -> Vec<u64> {
    let mut queue = Queue::set_up(links);
    queue.c = (1..=links).map(|i| link(i).k + 1).collect();
    plain_array(&queue)
}

#[test]
fn numbers_as_the_page_lists_them() {
    let firsts: Vec<usize> = (1..=5).map(first_number).collect();
    assert_eq!(firsts, [1, 5, 13, 29, 61]);
    assert_eq!(number(place(1, 2)), 3);
    assert_eq!(number(place(2, 2)), 7);
    assert_eq!(number(place(3, 8)), 21);
    assert_eq!(number(place(4, 4)), 33);
    assert_eq!(number(place(4, 31)), 60);
}

/// The page lays buffers by number, document 002 by top tree, middle and bottom
/// trees: for links 1 to 4 both come to the same.
#[test]
fn slots_lie_in_the_order_of_the_numbers() {
    for links in 1..=4 {
        let stretches = stretches(links);
        assert_eq!((stretches[0].place, stretches[0].first), (None, 256));
        for (at, stretch) in stretches.iter().enumerate().skip(1) {
            let place = stretch.place.unwrap();
            assert_eq!(number(place), at);
            assert_eq!(stretch.first, first_word(place.link, place.buffer));
        }
        let last = stretches[stretches.len() - 1];
        assert_eq!(last.first + last.capacity, array_words(links));
    }
}

#[test]
fn a_buffer_word_has_three_parts() {
    for (word, count, mark, start) in [
        (0, 0, false, 0),
        (7, 7, false, 0),
        (65_535, 65_535, false, 0),
        (65_536, 0, true, 0),
        (131_072, 0, false, 1),
        (3 + 65_536 + 5 * 131_072, 3, true, 5),
        (u64::MAX, 65_535, true, (1 << 47) - 1),
    ] {
        let said = BufferWord { count, mark, start };
        assert_eq!(BufferWord::read(word), said);
        assert_eq!(said.word(), word);
    }
}

#[test]
fn above_is_the_way_back_from_the_inputs() {
    let queue = Queue::set_up(4);
    assert_eq!(above(place(1, 0)), None);
    for stretch in &stretches(4)[1..] {
        let output = stretch.place.unwrap();
        for input in inputs(&queue, output).into_iter().flatten() {
            assert_eq!(above(input), Some(output));
        }
    }
    let way: Vec<usize> = way_up(place(3, 13)).map(number).collect();
    assert_eq!(way, [26, 19, 16, 14, 13, 5, 1]);
}

/// One link, c=2; I has 2 from its second slot on, S(1,1) has 3, S(1,2) is marked.
#[test]
fn an_array_written_by_hand() {
    let mut words = vec![99; 300];
    words[0] = 1;
    words[1] = 2;
    words[8] = 2 + 131_072;
    words[9] = 0;
    words[10] = 8 * 131_072;
    words[11] = 3 + 5 * 131_072;
    words[12] = 65_536;
    words[257..259].copy_from_slice(&[70, 71]);
    words[285..288].copy_from_slice(&[1, 2, 3]);
    let decoded = decode(&words);
    assert_eq!((decoded.links, &decoded.c[..]), (1, &[2][..]));
    let entries: Vec<&[u64]> = decoded.buffers.iter().map(|b| b.entries.unwrap()).collect();
    let none: &[u64] = &[];
    assert_eq!(entries, [&[70, 71], none, none, &[1, 2, 3], none]);
    let marks: Vec<bool> = decoded.buffers.iter().map(|b| b.word.mark).collect();
    assert_eq!(marks, [false, false, false, false, true]);
    let starts: Vec<usize> = decoded.buffers.iter().map(|b| b.word.start).collect();
    assert_eq!(starts, [1, 0, 8, 5, 0]);
    assert!(verdict(&words));
    let queue = decoded.queue().unwrap();
    assert_eq!((queue.held(), &queue.c[..]), (5, &[2][..]));
    let mut again = vec![99; 300];
    lay(&queue, &starts, &marks, &mut again);
    assert_eq!(again, words);
}

#[test]
fn decode_after_encode() {
    let mut rng = Rng::new(11);
    for turn in 0..400 {
        let links = if turn % 40 == 0 { 4 } else { 1 + turn % 3 };
        let queue = random_sound_queue(&mut rng, links);
        let starts = random_starts(&mut rng, &queue);
        let marks = random_marks(&mut rng, &queue);
        let words = encode(&queue, &starts, &marks);
        assert_eq!(words.len(), array_words(links));
        let decoded = decode(&words);
        assert_eq!(decoded.queue().as_ref(), Some(&queue));
        assert!(decoded.is_queue(&queue));
        let said = |n: usize| decoded.buffers[n].word;
        assert!((0..starts.len()).all(|n| said(n).start == starts[n]));
        assert!((0..marks.len()).all(|n| said(n).mark == marks[n]));
        assert!(verdict(&words));
        assert_eq!(broken_rules(&words), []);
    }
}

/// What is not the queue's is not read: the same queue in any garbage.
#[test]
fn garbage_does_not_matter() {
    let mut rng = Rng::new(12);
    for turn in 0..200 {
        let queue = random_sound_queue(&mut rng, 1 + turn % 3);
        let one = random_array(&mut rng, &queue);
        let mut other = garbage(&mut rng, one.len());
        let starts = random_starts(&mut rng, &queue);
        let marks = random_marks(&mut rng, &queue);
        lay(&queue, &starts, &marks, &mut other);
        assert_ne!(one, other);
        for words in [&one, &other] {
            assert!(decode(words).is_queue(&queue));
            assert!(verdict(words));
        }
    }
}

#[test]
fn a_different_queue_is_seen() {
    let mut rng = Rng::new(13);
    let mut queue = random_sound_queue(&mut rng, 2);
    queue.insertion = [4, 5].into();
    let words = plain_array(&queue);
    assert!(decode(&words).is_queue(&queue));
    let mut other = queue.clone();
    other.c[1] = 1 + other.c[1] % 5;
    assert!(!decode(&words).is_queue(&other));
    for entries in [vec![4], vec![5, 4], vec![4, 5, 5], vec![]] {
        let mut other = queue.clone();
        other.insertion = entries.into();
        assert!(!decode(&words).is_queue(&other));
    }
    assert!(!decode(&words).is_queue(&Queue::set_up(1)));
    let mut relinked = words.clone();
    relinked[0] = 1;
    assert!(!decode(&relinked).is_queue(&queue));
}

/// No length is too short to be looked at; what is cut off has no entries.
#[test]
fn arrays_of_every_length() {
    let mut rng = Rng::new(14);
    let mut queue = random_sound_queue(&mut rng, 2);
    queue.buffers[1][7] = [8, 9].into();
    queue.c = vec![3, 5];
    queue.buffers[1][0].clear();
    queue.buffers[0][0].clear();
    let whole = plain_array(&queue);
    assert!(verdict(&whole));
    for length in 0..whole.len() {
        let words = &whole[..length];
        let decoded = decode(words);
        assert_eq!(link_number(words).is_some(), length > 0);
        assert_eq!(verdict(words), length >= 256);
        // S(2,4) is the last buffer, of 24 slots.
        let last = decoded.buffers.last().and_then(|buffer| buffer.entries);
        assert_eq!(last.is_some(), length >= 514);
        assert_eq!(decoded.queue().is_some(), last == Some(&[8, 9]));
    }
    assert!(!verdict(&[]));
}

#[test]
fn link_numbers_out_of_range() {
    for (links, sound) in [
        (0, false),
        (1, true),
        (2, true),
        (3, true),
        (4, true),
        (5, false),
        (255, false),
        (1 << 32, false),
        ((1 << 32) + 1, false),
        ((1 << 63) + 2, false),
        (u64::MAX, false),
    ] {
        // The words of all four links are there, and the array is of one link.
        let mut words = open_array(4);
        words.truncate(296);
        words[0] = links;
        assert_eq!(verdict(&words), sound, "{links}");
        let broken = broken_rules(&words);
        assert_eq!(broken.contains(&Rule::LinkNumber), !sound);
        assert_eq!(decode(&words).buffers.is_empty(), !sound);
    }
    assert!(!verdict(&[0; 296]));
    assert_eq!(broken_rules(&[0; 296]), [Rule::LinkNumber]);
}

/// Words and what to write into them; the rules then broken.
type Case = (&'static [(usize, u64)], &'static [Rule]);

/// A start place behind so many slots, as it stands in a buffer's word.
const fn start(slots: u64) -> u64 {
    slots << 17
}

/// Counts and start places; I has number 0 and word 8.
const INSIDE: &[Case] = &[
    (&[], &[]),
    // I: 7 from the second slot on; 8 are inside, but one too many.
    (&[(8, 7 + start(1))], &[]),
    (&[(8, 7 + start(2))], &[Rule::Inside]),
    (&[(8, 8)], &[Rule::Insertion]),
    (&[(8, 9)], &[Rule::Inside, Rule::Insertion]),
    // B(2), number 6, has 64 slots.
    (&[(14, 64)], &[]),
    (&[(14, 65)], &[Rule::Inside]),
    (&[(14, 63 + start(1))], &[]),
    (&[(14, 63 + start(2))], &[Rule::Inside]),
    (&[(14, start(64))], &[]),
    (&[(14, start(65))], &[Rule::Inside]),
    (&[(14, start((1 << 47) - 1))], &[Rule::Inside]),
    // Inner buffer 8 of link 2 has 8, S(2,4) has 24, A(1) has 8.
    (&[(16, 8)], &[]),
    (&[(16, 9)], &[Rule::Inside]),
    (&[(20, 24)], &[]),
    (&[(20, 25)], &[Rule::Inside]),
    (&[(9, 8)], &[]),
    (&[(9, 9)], &[Rule::Inside]),
];

const COUNTERS: &[Case] = &[
    (&[(1, 1), (2, 1)], &[]),
    (&[(1, 0)], &[Rule::Counter]),
    (&[(1, 4)], &[Rule::Counter]),
    (&[(2, 0)], &[Rule::Counter]),
    (&[(2, 6)], &[Rule::Counter]),
    (&[(2, u64::MAX)], &[Rule::Counter]),
    (&[(1, (1 << 32) + 1)], &[Rule::Counter]),
    // c(3) and c(4) belong to no link of this queue.
    (&[(3, 0), (4, u64::MAX)], &[]),
    // S(2,3) is unused where c(2) is 3, not where it is 4.
    (&[(2, 4), (19, 1)], &[]),
    (&[(2, 3), (19, 1)], &[Rule::Unused]),
    (&[(2, 3), (18, 1)], &[]),
    (&[(1, 2), (12, 1)], &[Rule::Unused]),
    (&[(1, 2), (11, 1)], &[]),
];

const TOTALS: &[Case] = &[
    // Link 2 with c=2: 24 below A(2), which does not count.
    (&[(2, 2), (14, 20), (15, 4)], &[]),
    (&[(2, 2), (14, 20), (15, 4), (13, 64)], &[]),
    (&[(2, 2), (14, 20), (15, 5)], &[Rule::LinkTotal]),
    (&[(2, 2), (14, 20), (17, 5)], &[Rule::LinkTotal]),
    (&[(1, 1), (10, 1)], &[Rule::LinkTotal]),
    (&[(1, 2), (10, 8), (11, 1)], &[Rule::LinkTotal]),
    // H is 96.
    (&[(13, 64), (14, 32)], &[]),
    (&[(13, 64), (14, 32), (8, 1)], &[Rule::Held]),
    (&[(13, 64), (14, 32), (9, 1)], &[Rule::Held]),
];

const MARKS: &[Case] = &[
    // A mark on I asks for an empty I alone.
    (&[(8, MARK), (9, 8)], &[]),
    (&[(8, MARK + 1)], &[Rule::Mark]),
    // S(2,3) lies under inner buffer 8, B(2), A(2), A(1); not under the others.
    (
        &[(19, 1), (8, MARK), (10, MARK), (11, MARK), (12, MARK)],
        &[],
    ),
    (
        &[(19, 1), (15, MARK), (17, MARK), (18, MARK), (20, MARK)],
        &[],
    ),
    (&[(19, 1 + MARK)], &[Rule::Mark]),
    (&[(19, 1), (16, MARK)], &[Rule::Mark]),
    (&[(19, 1), (14, MARK)], &[Rule::Mark]),
    (&[(19, 1), (13, MARK)], &[Rule::Mark]),
    (&[(19, 1), (9, MARK)], &[Rule::Mark]),
    // B(1) feeds A(1) alone, and A(1) is below nothing.
    (&[(10, 1), (9, MARK)], &[Rule::Mark]),
    (&[(10, 1), (13, MARK)], &[]),
    (&[(9, 1), (10, MARK), (13, MARK)], &[]),
    // Words that mean nothing.
    (
        &[(5, 1), (6, 2), (7, 3), (21, u64::MAX), (68, 1), (255, 9)],
        &[],
    ),
];

/// Each rule at its boundary, in an empty array of 2 links, c=(3,5).
#[test]
fn each_rule_at_its_boundary() {
    for (changes, broken) in [INSIDE, COUNTERS, TOTALS, MARKS].concat() {
        let mut words = open_array(2);
        for &(at, word) in changes {
            words[at] = word;
        }
        assert_eq!(broken_rules(&words), broken, "{changes:?}");
        assert_eq!(verdict(&words), broken.is_empty(), "{changes:?}");
    }
}

/// The rules on counts and counters against those on a plain queue.
#[test]
fn verdict_is_that_of_the_plain_queue() {
    let mut rng = Rng::new(15);
    let mut found = [0; 2];
    for turn in 0..4_000 {
        let links = 1 + turn % 3;
        let mut queue = random_sound_queue(&mut rng, links);
        for _ in 0..rng.below(3) {
            let i = 1 + rng.size(links);
            let at = rng.size(2 * link(i).k);
            let capacity = link(i).capacities[at];
            let count = rng.size(capacity + 1);
            queue.buffers[i - 1][at] = vec![1; count].into();
            queue.c[i - 1] = rng.size(link(i).k + 3);
        }
        let sound =
            (0..links).all(|i| (1..=link(i + 1).k + 1).contains(&queue.c[i])) && book_sound(&queue);
        let starts = random_starts(&mut rng, &queue);
        let words = encode(&queue, &starts, &vec![false; starts.len()]);
        assert_eq!(verdict(&words), sound, "{queue:?}");
        found[usize::from(sound)] += 1;
    }
    assert!(found.iter().all(|&count| count > 500), "{found:?}");
}

/// Marks anywhere against the rule on a plain queue, which walks downwards.
#[test]
fn marks_as_on_the_plain_queue() {
    let mut rng = Rng::new(16);
    let mut found = [0; 2];
    for turn in 0..4_000 {
        let mut queue = Queue::set_up(1 + turn % 4);
        queue.c = (1..=queue.links).map(|i| link(i).k + 1).collect();
        let stretches = stretches(queue.links);
        for _ in 0..rng.below(3) {
            let at = rng.size(stretches.len());
            match stretches[at].place {
                None => queue.insertion = [1].into(),
                Some(place) => *queue.buffer_mut(place) = [1].into(),
            }
        }
        let mut marks = random_marks(&mut rng, &queue);
        marks[rng.size(stretches.len())] = true;
        let allowed = |at: usize| match stretches[at].place {
            None => queue.insertion.is_empty(),
            Some(place) => mark_allowed(&queue, place),
        };
        let sound = (0..marks.len()).all(|at| !marks[at] || allowed(at));
        let words = encode(&queue, &vec![0; marks.len()], &marks);
        assert_eq!(verdict(&words), sound);
        found[usize::from(sound)] += 1;
    }
    assert!(found.iter().all(|&count| count > 500), "{found:?}");
}

/// Start places are at both ends and between, marks stand and do not.
#[test]
fn random_layouts_are_all_different() {
    let mut rng = Rng::new(17);
    let (mut front, mut end, mut between, mut marked, mut bare) = (0, 0, 0, 0, 0);
    for _ in 0..300 {
        let queue = random_sound_queue(&mut rng, 2);
        let starts = random_starts(&mut rng, &queue);
        let marks = random_marks(&mut rng, &queue);
        for (n, stretch) in stretches(2).iter().enumerate() {
            let most = stretch.capacity - buffer(&queue, n).len();
            match starts[n] {
                0 if most > 0 => front += 1,
                start if start == most => end += 1,
                _ => between += 1,
            }
            let empty = buffer(&queue, n).is_empty();
            marked += usize::from(marks[n]);
            bare += usize::from(empty && !marks[n]);
            assert!(empty || !marks[n]);
        }
    }
    let reached = [front, end, between, marked, bare];
    assert!(reached.iter().all(|&count| count > 300), "{reached:?}");
}
