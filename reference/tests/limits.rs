//! How long one call can run: the documents' numbers, the text, and generated arrays.

mod common;

use common::random_sound_queue;
use reference::array::calls::{expected, Call};
use reference::array::generate::Arrays;
use reference::array::link_number;
use reference::array::longest::{long_insert, long_take};
use reference::limits::{longest_insert, longest_take, per_insert, per_packing, text};
use reference::links::most_held;
use reference::movement::{insert, look, take};
use reference::queue::{book_sound, order_kept, Queue};
use reference::rng::Rng;
use std::process::Command;

/// "16 merge steps with one link, 224 with two and 2,396 with three".
#[test]
fn longest_takes() {
    let takes: Vec<u64> = (1..=5).map(longest_take).collect();
    assert_eq!(takes, [16, 224, 2_396, 23_500, 223_488]);
}

#[test]
fn longest_inserts() {
    let inserts: Vec<u64> = (1..=4).map(longest_insert).collect();
    assert_eq!(inserts, [16, 352, 5_712, 138_176]);
}

/// Document 01's "steps bound", and R-8's for the fifth: "33n + 5,875,200P".
#[test]
fn steps_bounds() {
    let bounds: Vec<(u64, u64)> = (1..=5).map(|l| (per_insert(l), per_packing(l))).collect();
    let wanted = [
        (2, 32),
        (6, 384),
        (13, 5_760),
        (22, 138_240),
        (33, 5_875_200),
    ];
    assert_eq!(bounds, wanted);
}

const TEXT: &str = "\
links 1  array 296  work 16  entries 16  longest take 16  longest insert 16  per insert 2  per packing 32
links 2  array 536  work 96  entries 96  longest take 224  longest insert 352  per insert 6  per packing 384
links 3  array 2628  work 960  entries 960  longest take 2396  longest insert 5712  per insert 13  per packing 5760
links 4  array 28436  work 17280  entries 17280  longest take 23500  longest insert 138176  per insert 22  per packing 138240
links 5  longest take 223488
";

#[test]
fn text_of_the_limits() {
    assert_eq!(text(), TEXT);
    let program = env!("CARGO_BIN_EXE_reference");
    let output = Command::new(program).arg("--limits").output().unwrap();
    assert!(output.status.success());
    assert_eq!(String::from_utf8(output.stdout).unwrap(), TEXT);
}

/// Take, look and insert, each on the queue as it is given.
fn steps(queue: &Queue) -> [u64; 3] {
    let full = queue.held() == most_held(queue.links);
    let insert_steps = if full {
        0
    } else {
        insert(&mut queue.clone(), 7).1
    };
    [
        take(&mut queue.clone(), None).1,
        look(&mut queue.clone()).1,
        insert_steps,
    ]
}

fn within_limits(links: usize, [take, look, insert]: [u64; 3]) -> bool {
    let most = longest_take(links);
    take <= most && look <= most && insert <= longest_insert(links)
}

#[test]
fn sound_queues_keep_the_limits() {
    let mut rng = Rng::new(1);
    for turn in 0..8_000 {
        let links = if turn % 50 == 0 { 4 } else { 1 + turn % 3 };
        let made = steps(&random_sound_queue(&mut rng, links));
        assert!(within_limits(links, made), "{links} {made:?}");
    }
}

#[test]
fn generated_arrays_keep_the_limits() {
    let mut arrays = Arrays::new(2);
    for _ in 0..8_000 {
        let words = arrays.next_array().words;
        let calls = [Call::Take, Call::Look, Call::Insert(7, usize::MAX)];
        let made = calls.map(|call| expected(&words, call).outcome.steps);
        // Without a link number every call is refused.
        let kept = match link_number(&words) {
            Some(links) => within_limits(links, made),
            None => made == [0; 3],
        };
        assert!(kept, "{made:?}");
    }
}

/// The most merge steps that a book is known for.
#[test]
fn plain_long_calls() {
    let mut rng = Rng::new(3);
    for (links, wanted) in [(1, 16), (2, 216), (3, 2_358), (4, 23_262)] {
        let queue = long_take(&mut rng, links, true);
        assert!(book_sound(&queue) && order_kept(&queue), "{links}");
        assert_eq!(steps(&queue)[..2], [wanted; 2], "{links}");
        let queue = long_insert(&mut rng, links, true);
        assert!(book_sound(&queue) && order_kept(&queue), "{links}");
        assert_eq!(steps(&queue)[2], longest_insert(links), "{links}");
    }
}

/// Five links can be filled, but not be set up yet.
#[test]
fn plain_long_take_of_five() {
    let mut queue = long_take(&mut Rng::new(3), 5, true);
    assert!(order_kept(&queue));
    assert_eq!(take(&mut queue, None).1, 222_938);
}

#[test]
fn long_calls_keep_the_limits() {
    let mut rng = Rng::new(4);
    let mut ordered = [0; 2];
    for turn in 0..2_000 {
        let links = if turn % 50 == 0 { 4 } else { 1 + turn % 3 };
        for long in [long_take, long_insert] {
            let queue = long(&mut rng, links, false);
            assert!(book_sound(&queue));
            assert!(within_limits(links, steps(&queue)));
            ordered[usize::from(order_kept(&queue))] += 1;
        }
    }
    assert!(ordered.iter().all(|&many| many > 500), "{ordered:?}");
}
