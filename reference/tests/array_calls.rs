//! What each call on an array of any length and content comes to.

mod common;

use common::{around, entry, random_sound_queue};
use reference::array::built::random_array;
use reference::array::calls::{expected, Call, Expected};
use reference::array::{decode, encode, stretches};
use reference::links::{array_words, most_held};
use reference::machine::{Machine, Outcome};
use reference::queue::{Buffer, Queue};
use reference::rng::Rng;
use std::collections::BTreeMap;

const MARK: u64 = 1 << 16;

fn plain_array(queue: &Queue) -> Vec<u64> {
    let many = stretches(queue.links).len();
    encode(queue, &vec![0; many], &vec![false; many])
}

/// What insert, take, look, held and audit answer; refusals must change nothing.
fn answers(words: &[u64], work_words: usize, entry: u64) -> [u8; 5] {
    let calls = [
        Call::Insert(entry, work_words),
        Call::Take,
        Call::Look,
        Call::Held,
        Call::Audit,
    ];
    calls.map(|call| {
        let Expected { outcome, after } = expected(words, call);
        if outcome.answer != 0 {
            assert_eq!(outcome, Outcome::refused(outcome.answer));
        }
        let changing = !matches!(call, Call::Held | Call::Audit);
        assert_eq!(after.is_some(), changing && outcome.answer == 0);
        outcome.answer
    })
}

/// "all others: 2 (296 words), 4 (link number), 2 (its L), then insert 3, 4, 7, 5
/// [..]; take and look 4, 6; held 4; audit 4, 9."
#[test]
fn checks_in_their_order() {
    let bad_door = entry(1) | 3 << 24;
    let fresh = plain_array(&Queue::set_up(2));
    for links in [0, 5, (1 << 32) + 1, u64::MAX] {
        let mut words = fresh.clone();
        words[0] = links;
        assert_eq!(answers(&words[..295], 0, bad_door), [2; 5]);
        assert_eq!(answers(&words[..296], 0, bad_door), [4; 5]);
    }
    // A counter, a start place, a mark: each breaks the book.
    for (at, word) in [(2, 0), (14, 65 << 17), (8, MARK + 1)] {
        let mut words = fresh.clone();
        words[at] = word;
        assert_eq!(answers(&words[..295], 0, bad_door), [2; 5]);
        assert_eq!(answers(&words[..535], 0, bad_door), [2; 5]);
        assert_eq!(answers(&words, 95, bad_door), [3, 4, 4, 4, 4]);
        assert_eq!(answers(&words, 96, bad_door), [4; 5]);
        assert_eq!(answers(&words, 96, entry(1)), [4; 5]);
    }
    assert_eq!(answers(&fresh[..535], 96, entry(1)), [2; 5]);
    assert_eq!(answers(&fresh, 95, bad_door), [3, 6, 6, 0, 0]);
    assert_eq!(answers(&fresh, 96, bad_door), [7, 6, 6, 0, 0]);
    assert_eq!(answers(&fresh, 96, entry(1)), [0, 6, 6, 0, 0]);
    let mut full = Queue::set_up(1);
    full.c = vec![3];
    full.buffers[0][2] = vec![1; 8].into();
    full.buffers[0][3] = vec![1; 8].into();
    let full = plain_array(&full);
    assert_eq!(answers(&full, 16, bad_door), [7, 0, 0, 0, 0]);
    assert_eq!(answers(&full, 16, entry(1)), [5, 0, 0, 0, 0]);
    let mut disordered = Queue::set_up(1);
    disordered.insertion = [2, 1].into();
    let disordered = plain_array(&disordered);
    assert_eq!(answers(&disordered, 16, entry(1)), [0, 0, 0, 0, 9]);
}

/// Examples 7 and 8, and every length up to the stated one.
#[test]
fn every_length() {
    for links in 1..=2 {
        let whole = plain_array(&Queue::set_up(links));
        let enough = most_held(links);
        for length in 0..whole.len() {
            assert_eq!(answers(&whole[..length], enough, entry(1)), [2; 5]);
            let zeros = if length < 296 { 2 } else { 4 };
            assert_eq!(answers(&vec![0; length], enough, entry(1)), [zeros; 5]);
        }
        assert_eq!(answers(&whole, enough, entry(1)), [0, 6, 6, 0, 0]);
        assert_eq!(answers(&whole, enough - 1, entry(1)), [3, 6, 6, 0, 0]);
    }
}

/// "Checks run: setup 1, 2"; what lies in the array does not matter.
#[test]
fn setup_on_any_array() {
    for (links, length, answer) in [
        (0, 0, 1),
        (5, 100_000, 1),
        (1 << 32, 0, 1),
        ((1 << 32) + 1, 296, 1),
        (u64::MAX, 0, 1),
        (1, 0, 2),
        (1, 255, 2),
        (1, 295, 2),
        (1, 296, 0),
        (2, 535, 2),
        (2, 536, 0),
        (3, 2_627, 2),
        (3, 2_628, 0),
        (4, 28_435, 2),
        (4, 28_436, 0),
        (1, 30_000, 0),
    ] {
        let words = vec![u64::MAX; length];
        let Expected { outcome, after } = expected(&words, Call::Setup(links));
        assert_eq!(outcome, Outcome::refused(answer), "{links} {length}");
        let set_up = (answer == 0).then(|| Queue::set_up(links as usize));
        assert_eq!(after, set_up, "{links} {length}");
    }
}

/// A plain machine's outcome and queue after the same call.
fn by_machine(machine: &Machine, call: Call) -> (Outcome, Queue) {
    let mut machine = machine.clone();
    let outcome = match call {
        Call::Setup(links) => machine.setup(links as usize),
        Call::Insert(entry, work_words) => {
            machine.work_words = work_words;
            machine.insert(entry)
        }
        Call::Take => machine.take(),
        Call::Look => machine.look(),
        Call::Held => machine.held(),
        Call::Audit => machine.audit(),
    };
    (outcome, machine.queue.unwrap())
}

/// Wherever the entries lie, an array comes to the same as the plain queue.
#[test]
fn as_the_plain_machine() {
    let mut rng = Rng::new(21);
    let mut answered = BTreeMap::<u8, usize>::new();
    for turn in 0..1_500 {
        let links = if turn % 60 == 0 { 4 } else { 1 + turn % 3 };
        let mut queue = random_sound_queue(&mut rng, links);
        if turn % 7 == 0 {
            queue = Queue::set_up(links);
        }
        let words = random_array(&mut rng, &queue);
        let machine = around(queue.clone());
        let work_words = most_held(links) - usize::from(rng.one_in(9));
        for call in [
            Call::Setup(rng.below(6)),
            Call::Insert(rng.below(50) | rng.below(4) << 24, work_words),
            Call::Take,
            Call::Look,
            Call::Held,
            Call::Audit,
        ] {
            if matches!(call, Call::Setup(l) if l > links as u64) {
                continue;
            }
            let (outcome, after) = by_machine(&machine, call);
            let found = expected(&words, call);
            assert_eq!(found.outcome, outcome, "{call:?} {queue:?}");
            assert_eq!(found.after.as_ref().unwrap_or(&queue), &after);
            *answered.entry(outcome.answer).or_default() += 1;
        }
    }
    // 2 and 4 do not come from sound arrays.
    assert!(answered.keys().eq(&[0, 1, 3, 5, 6, 7, 9]), "{answered:?}");
    assert!(answered.values().all(|&many| many >= 20), "{answered:?}");
}

/// Every insert of a run of calls, laid anew between them, packings included.
#[test]
fn a_run_of_calls_through_arrays() {
    let mut rng = Rng::new(22);
    let mut machine = Machine::zeros(array_words(1), most_held(1));
    machine.setup(1);
    let mut words = random_array(&mut rng, machine.queue.as_ref().unwrap());
    let (mut packings, mut steps) = (0, 0);
    for _ in 0..2_000 {
        let call = match rng.below(11) {
            0..=4 => Call::Insert(entry(rng.below(9)), 16),
            5..=9 => Call::Take,
            _ => Call::Look,
        };
        let (outcome, after) = by_machine(&machine, call);
        let found = expected(&words, call);
        assert_eq!(found.outcome, outcome);
        machine.queue = Some(after);
        if let Some(queue) = found.after {
            words = random_array(&mut rng, &queue);
        }
        assert!(decode(&words).is_queue(machine.queue.as_ref().unwrap()));
        packings += usize::from(outcome.packed);
        steps += outcome.steps;
    }
    assert!(packings > 5 && steps > 100, "{packings} {steps}");
}

/// Example 1 by its words: S(1,1) has 8, c=2; the next take gives tick 1 in 16 steps.
#[test]
fn example_one_by_its_words() {
    let mut queue = Queue::set_up(1);
    queue.insertion = (1..=7).map(entry).collect::<Buffer>();
    let words = plain_array(&queue);
    let swept = expected(&words, Call::Insert(entry(8), 16));
    assert_eq!((swept.outcome.answer, swept.outcome.steps), (0, 0));
    let words = plain_array(swept.after.as_ref().unwrap());
    assert_eq!((words[1], words[11]), (2, 8));
    let taken = expected(&words, Call::Take).outcome;
    assert_eq!((taken.word, taken.steps), (entry(1), 16));
}
