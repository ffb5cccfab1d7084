//! Given states: book rules, order rule, check order, and movement where the
//! order is broken.

mod common;

use common::{around, entry, machine, queue, random_sound_queue, set_up, sorted_entries};
use reference::links::link;
use reference::machine::{Machine, Outcome};
use reference::movement::{after_insert, fill, path, After};
use reference::queue::{a, book_sound, mark_allowed, order_kept, Buffer, Place, Queue};
use reference::rng::Rng;

fn buffer(entries: &[u64]) -> Buffer {
    entries.iter().copied().collect()
}

/// A buffer of so many entries, all 1.
fn ones(count: usize) -> Buffer {
    buffer(&vec![1; count])
}

/// One link: c, I, A, B, S(1,1), S(1,2) by their counts.
fn one_link(c: usize, counts: [usize; 5]) -> Queue {
    let mut queue = Queue::set_up(1);
    queue.c = vec![c];
    queue.insertion = ones(counts[0]);
    queue.buffers[0] = counts[1..].iter().map(|&count| ones(count)).collect();
    queue
}

#[test]
fn each_book_rule_alone() {
    let sound = [
        one_link(1, [7, 8, 0, 0, 0]),
        one_link(2, [0, 8, 8, 0, 0]),
        one_link(2, [1, 7, 0, 8, 0]),
        one_link(3, [0, 0, 8, 0, 8]),
        one_link(3, [0, 0, 0, 8, 8]),
        one_link(3, [7, 8, 1, 0, 0]),
    ];
    for queue in sound {
        assert!(book_sound(&queue), "{queue:?}");
    }
    let unsound = [
        one_link(1, [8, 0, 0, 0, 0]),
        one_link(1, [0, 9, 0, 0, 0]),
        one_link(3, [0, 0, 9, 0, 0]),
        one_link(3, [0, 0, 0, 9, 0]),
        one_link(3, [0, 0, 0, 0, 9]),
        one_link(0, [0, 0, 0, 0, 0]),
        one_link(4, [0, 0, 0, 0, 0]),
        one_link(usize::MAX, [0, 0, 0, 0, 0]),
        one_link(1, [0, 0, 0, 1, 0]),
        one_link(2, [0, 0, 0, 0, 1]),
        one_link(1, [0, 0, 1, 0, 0]),
        one_link(2, [0, 0, 1, 8, 0]),
        one_link(3, [7, 8, 1, 1, 0]),
    ];
    for queue in unsound {
        assert!(!book_sound(&queue), "{queue:?}");
    }
}

#[test]
fn states_that_lack_parts_are_unsound() {
    let whole = Queue::set_up(2);
    assert!(book_sound(&whole));
    for links in [0, 1, 3, 5, usize::MAX] {
        let queue = Queue {
            links,
            ..whole.clone()
        };
        assert!(!book_sound(&queue), "{links}");
    }
    let mut queue = whole.clone();
    queue.c.pop();
    assert!(!book_sound(&queue));
    let mut queue = whole.clone();
    queue.buffers[1].pop();
    assert!(!book_sound(&queue));
}

#[test]
fn order_rule() {
    let kept = |insertion: &[u64], filled: &[(usize, usize, &[u64])]| {
        let mut queue = Queue::set_up(2);
        queue.insertion = buffer(insertion);
        for (link, number, entries) in filled {
            queue.buffers[link - 1][*number] = buffer(entries);
        }
        order_kept(&queue)
    };
    assert!(kept(&[], &[]));
    // Equal neighbours are allowed; I stands outside the tree but ascends.
    assert!(kept(&[1, 1, 2], &[(1, 0, &[5, 5, 6])]));
    assert!(!kept(&[2, 1], &[]));
    assert!(!kept(&[], &[(1, 0, &[6, 5])]));
    assert!(!kept(&[], &[(2, 7, &[1, 3, 2])]));
    // Empty buffers may lie between: A(1) over S(1,1), A(1) over S(2,4).
    assert!(kept(&[], &[(1, 0, &[5]), (1, 2, &[5, 9])]));
    assert!(!kept(&[], &[(1, 0, &[5]), (1, 2, &[4, 9])]));
    assert!(kept(&[], &[(1, 0, &[0, 5]), (2, 7, &[5])]));
    assert!(!kept(&[], &[(1, 0, &[0, 5]), (2, 7, &[4])]));
    // One beside the other: neither is on the other's way to A(1).
    assert!(kept(&[], &[(1, 1, &[9]), (2, 0, &[3])]));
    assert!(kept(&[], &[(2, 2, &[9]), (2, 6, &[3]), (2, 4, &[9])]));
    assert!(!kept(&[], &[(2, 2, &[9]), (2, 4, &[3])]));
    // The last of the upper buffer decides, not its head.
    assert!(!kept(&[], &[(2, 1, &[1, 8]), (2, 3, &[7, 9])]));
}

#[test]
fn marks_stand_only_over_nothing() {
    let mut queue = Queue::set_up(2);
    let place = |link, buffer| Place { link, buffer };
    assert!((0..4).all(|number| mark_allowed(&queue, place(1, number))));
    assert!((0..8).all(|number| mark_allowed(&queue, place(2, number))));
    // S(2,3) lies below inner buffer 3, B(2), A(2) and A(1).
    queue.buffers[1][6] = ones(1);
    let allowed: Vec<usize> = (0..8)
        .filter(|&n| mark_allowed(&queue, place(2, n)))
        .collect();
    assert_eq!(allowed, [2, 4, 5, 7]);
    let allowed: Vec<usize> = (0..4)
        .filter(|&n| mark_allowed(&queue, place(1, n)))
        .collect();
    assert_eq!(allowed, [1, 2, 3]);
}

/// Every call but setup, with what it answers.
fn answers(machine: &Machine, entry: u64) -> [u8; 5] {
    let run = |call: &dyn Fn(&mut Machine) -> Outcome| {
        let mut copy = machine.clone();
        let outcome = call(&mut copy);
        if outcome.answer != 0 {
            assert_eq!(outcome, Outcome::refused(outcome.answer));
            assert_eq!(&copy, machine, "a refusal changes nothing");
        }
        outcome.answer
    };
    [
        run(&|m| m.insert(entry)),
        run(&|m| m.take()),
        run(&|m| m.look()),
        run(&|m| m.held()),
        run(&|m| m.audit()),
    ]
}

/// "all others: 2 (296 words), 4 (link number), 2 (its L), then insert 3, 4, 7,
/// 5 [..]; take and look 4, 6; held 4; audit 4, 9."
#[test]
fn checks_in_their_order() {
    let good = entry(1);
    let bad_door = entry(1) | 3 << 24;
    let with = |array_words, work_words, queue: &Queue| Machine {
        array_words,
        work_words,
        queue: Some(queue.clone()),
    };
    let fresh = Queue::set_up(2);
    let mut broken = Queue::set_up(2);
    broken.c[1] = 0;
    let no_links = Queue {
        links: 0,
        ..fresh.clone()
    };
    let five_links = Queue {
        links: 5,
        ..fresh.clone()
    };
    for numberless in [&no_links, &five_links] {
        assert_eq!(answers(&with(295, 0, numberless), bad_door), [2; 5]);
        assert_eq!(answers(&with(296, 0, numberless), bad_door), [4; 5]);
    }
    assert_eq!(answers(&with(535, 0, &broken), bad_door), [2; 5]);
    assert_eq!(answers(&with(536, 95, &broken), bad_door), [3, 4, 4, 4, 4]);
    assert_eq!(answers(&with(536, 96, &broken), bad_door), [4; 5]);
    assert_eq!(answers(&with(535, 0, &fresh), good), [2; 5]);
    assert_eq!(answers(&with(536, 95, &fresh), bad_door), [3, 6, 6, 0, 0]);
    assert_eq!(answers(&with(536, 96, &fresh), bad_door), [7, 6, 6, 0, 0]);
    assert_eq!(answers(&with(536, 96, &fresh), good), [0, 6, 6, 0, 0]);
    let full = one_link(3, [0, 0, 0, 8, 8]);
    assert_eq!(answers(&around(full.clone()), bad_door), [7, 0, 0, 0, 0]);
    assert_eq!(answers(&around(full), good), [5, 0, 0, 0, 0]);
    let mut disordered = Queue::set_up(1);
    disordered.insertion = buffer(&[2, 1]);
    assert_eq!(answers(&around(disordered.clone()), good), [0, 0, 0, 0, 9]);
    disordered.c[0] = 0;
    assert_eq!(answers(&around(disordered), good), [4; 5]);
}

/// "Checks run: setup 1, 2"; "Every refusal changes nothing".
#[test]
fn setup_checks() {
    for (links, words, answer) in [
        (0, 10, 1),
        (5, 1_000_000, 1),
        (255, 10, 1),
        (1, 295, 2),
        (1, 296, 0),
        (2, 535, 2),
        (2, 536, 0),
        (3, 2_627, 2),
        (3, 2_628, 0),
        (4, 28_435, 2),
        (4, 28_436, 0),
    ] {
        let mut machine = Machine::zeros(words, 0);
        machine.queue = Some(one_link(9, [8, 9, 9, 9, 9]));
        let before = machine.clone();
        assert_eq!(machine.setup(links), Outcome::refused(answer));
        if answer == 0 {
            assert_eq!(machine.queue, Some(Queue::set_up(links)));
        } else {
            assert_eq!(machine, before);
        }
    }
}

/// "place the entry in I before the first larger one", I in disorder too.
#[test]
fn entry_goes_before_the_first_larger() {
    for (before, new, after) in [
        (vec![], 4, vec![4]),
        (vec![5, 3], 4, vec![4, 5, 3]),
        (vec![3, 9, 1, 9], 3, vec![3, 3, 9, 1, 9]),
        (vec![4, 2], 4, vec![4, 2, 4]),
    ] {
        let mut queue = Queue::set_up(1);
        queue.insertion = buffer(&before);
        let mut machine = around(queue);
        assert_eq!(machine.insert(new), Outcome::default());
        assert_eq!(common::queue(&machine).insertion, buffer(&after));
    }
}

/// "at equal heads the first input's", seen by which input shrinks.
#[test]
fn equal_heads_leave_the_first_input() {
    let mut queue = one_link(3, [0, 0, 7, 1, 1]);
    assert_eq!(fill(&mut queue, 1, 1, None), 1);
    let counts: Vec<usize> = queue.buffers[0].iter().map(Buffer::len).collect();
    assert_eq!(counts, [0, 8, 0, 1]);
    // v(1): B(1) before A(2).
    let mut queue = Queue::set_up(2);
    queue.buffers[0][0] = ones(7);
    queue.buffers[0][1] = ones(1);
    queue.buffers[1][0] = ones(1);
    assert_eq!(fill(&mut queue, 1, 0, None), 1);
    assert_eq!(
        (queue.buffers[0][1].len(), queue.buffers[1][0].len()),
        (0, 1)
    );
}

/// "at equality A(1)'s", and not I's.
#[test]
fn take_prefers_the_tree() {
    let mut machine = around(one_link(1, [1, 1, 0, 0, 0]));
    assert_eq!(machine.take().word, 1);
    assert_eq!(queue(&machine).insertion.len(), 1);
    assert_eq!(queue(&machine).buffers[0][0].len(), 0);
}

/// "Trusting A(1) alone: the smallest may be in I." Look fills all the same.
#[test]
fn look_fills_and_removes_nothing() {
    let mut queue = one_link(2, [1, 0, 0, 3, 0]);
    queue.insertion = buffer(&[0]);
    let mut machine = around(queue);
    let outcome = machine.look();
    assert_eq!((outcome.answer, outcome.word, outcome.steps), (0, 0, 6));
    assert_eq!(common::queue(&machine).held(), 4);
    assert_eq!(common::queue(&machine).buffers[0][0].len(), 3);
    assert_eq!(machine.look().steps, 0);
}

/// A merger does not read an input that is treated as exhausted.
#[test]
fn fill_leaves_an_exhausted_input_alone() {
    let mut queue = Queue::set_up(2);
    queue.buffers[0][2] = buffer(&[5, 6]);
    queue.buffers[1][0] = buffer(&[1, 2]);
    queue.buffers[1][5] = buffer(&[7]);
    assert_eq!(fill(&mut queue, 1, 0, Some(2)), 4);
    assert_eq!(queue.buffers[0][0], buffer(&[5, 6]));
    assert_eq!(queue.buffers[1][0], buffer(&[1, 2]));
    // Three steps into A(1), and 7's three on its way to A(2).
    assert_eq!(fill(&mut queue, 1, 0, None), 6);
    assert_eq!(queue.buffers[0][0], buffer(&[5, 6, 1, 2, 7]));
    assert_eq!(queue.held(), 5);
}

/// "at equal heads the path's first": seen where the runs do not ascend.
#[test]
fn join_prefers_the_path() {
    let mut queue = Queue::set_up(1);
    queue.buffers[0][0] = buffer(&[5, 1]);
    queue.insertion = buffer(&[5, 2, 9, 9, 9, 9, 9]);
    let mut machine = around(queue);
    assert_eq!(machine.insert(9).swept_to, Some(1));
    assert_eq!(common::queue(&machine).buffers[0][0], buffer(&[5, 1]));
    let rest = buffer(&[5, 2, 9, 9, 9, 9, 9, 9]);
    assert_eq!(common::queue(&machine).buffers[0][2], rest);
}

/// "Answering 5 when all counters are used up though fewer than H are held" is a
/// slip: with all counters used up, eight entries are packed all the same.
#[test]
fn packing_with_few_entries() {
    let mut queue = Queue::set_up(3);
    queue.c = vec![3, 5, 9];
    queue.insertion = ones(7);
    let mut machine = around(queue);
    let outcome = machine.insert(0);
    assert!(outcome.packed);
    assert_eq!((outcome.answer, outcome.steps), (0, 0));
    let queue = common::queue(&machine);
    assert_eq!(queue.c, [1, 1, 2]);
    assert_eq!(queue.buffers[2][8], buffer(&[0, 1, 1, 1, 1, 1, 1, 1]));
    assert_eq!(queue.held(), 8);
}

/// "The rest goes into S(i, c(i))": how many an insert that sweeps to i leaves over.
fn rest(before: &Queue, i: usize) -> usize {
    let emptied: usize = (1..i).map(|lower| before.held_in_link(lower)).sum();
    let noted: usize = (1..i).map(|lower| before.buffer(a(lower)).len()).sum();
    // From A(i) downwards as much is refilled as is read.
    before.insertion.len() + 1 + emptied - noted
}

/// What an accepted insert into any sound state must leave behind.
fn check_insert(before: &Queue, machine: &mut Machine, entry: u64) -> Outcome {
    let after = after_insert(before);
    let outcome = machine.insert(entry);
    let queue = common::queue(machine);
    if outcome.answer != 0 {
        assert_eq!((outcome.answer, queue), (5, before));
        return outcome;
    }
    let mut expected = sorted_entries(before);
    expected.push(entry);
    expected.sort_unstable();
    assert_eq!(sorted_entries(queue), expected);
    if let After::SweepTo(i) = after {
        let way = path(before, i);
        let (destination, noted) = way.split_last().unwrap();
        for &place in noted {
            assert_eq!(queue.buffer(place).len(), before.buffer(place).len());
        }
        assert_eq!(queue.buffer(*destination).len(), rest(before, i));
        assert!(rest(before, i) <= link(i).s, "{before:?}");
        assert_eq!(queue.c[i - 1], before.c[i - 1] + 1);
        assert!(queue.c[..i - 1].iter().all(|&c| c == 1));
        assert_eq!(queue.c[i..], before.c[i..]);
    }
    outcome
}

/// "every accepted call leaves a book that keeps all book rules", for any state.
#[test]
fn calls_on_any_sound_state_keep_the_book() {
    let mut rng = Rng::new(7);
    let (mut sweeps, mut packs, mut fulls, mut disorders) = ([0; 5], 0, 0, 0);
    for turn in 0..6_000 {
        let links = if turn % 20 == 0 { 4 } else { 1 + turn % 3 };
        let before = random_sound_queue(&mut rng, links);
        assert!(book_sound(&before), "{before:?}");
        disorders += usize::from(!order_kept(&before));
        let mut machine = around(before.clone());
        let outcome = check_insert(&before, &mut machine, rng.below(50));
        assert!(book_sound(common::queue(&machine)));
        sweeps[outcome.swept_to.unwrap_or(0)] += 1;
        packs += usize::from(outcome.packed);
        fulls += usize::from(outcome.answer == 5);
        let look = machine.look();
        assert!(book_sound(common::queue(&machine)));
        let held = machine.held().word;
        let take = machine.take();
        assert_eq!((look.answer, look.word), (take.answer, take.word));
        assert_eq!((take.answer, take.steps), (0, 0), "look has filled A(1)");
        assert!(book_sound(common::queue(&machine)));
        assert_eq!(machine.held().word, held - 1);
    }
    assert!(sweeps.iter().all(|&count| count >= 10), "{sweeps:?}");
    let reached = (packs, fulls, disorders);
    assert!(
        packs >= 100 && fulls >= 100 && disorders >= 1_000,
        "{reached:?}"
    );
}

/// Fills that meet nothing but empty inputs stop at once.
#[test]
fn fill_of_an_empty_queue_stops() {
    for links in 1..=4 {
        let mut machine = set_up(links);
        let queue = machine.queue.as_mut().unwrap();
        for i in 1..=links {
            for number in 0..2 * link(i).k {
                assert_eq!(fill(queue, i, number, None), 0);
            }
        }
        assert_eq!(machine, set_up(links));
    }
    assert_eq!(machine(1).queue, None);
}
