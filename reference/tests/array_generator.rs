//! What the generated arrays reach.

mod common;

use reference::array::built::{built_queue, disorder, near_order, random_array};
use reference::array::calls::{expected, Call};
use reference::array::damage::damage;
use reference::array::generate::{Arrays, Kind, Sample};
use reference::array::near::near_array;
use reference::array::{broken_rules, decode, link_number, verdict, Rule, RULES};
use reference::links::array_words;
use reference::queue::{book_sound, order_kept};
use reference::rng::Rng;
use std::collections::BTreeMap;

fn samples(seed: u64, many: usize) -> Vec<Sample> {
    let mut arrays = Arrays::new(seed);
    (0..many).map(|_| arrays.next_array()).collect()
}

#[test]
fn same_seed_same_arrays() {
    assert_eq!(samples(5, 300), samples(5, 300));
    assert_ne!(samples(5, 300), samples(6, 300));
}

#[test]
fn every_kind_with_its_share_of_sound_books() {
    let mut shares: BTreeMap<Kind, [usize; 2]> = BTreeMap::new();
    for Sample { kind, words } in samples(1, 6_000) {
        let fits = link_number(&words).is_some_and(|links| words.len() >= array_words(links));
        let accepted = fits && verdict(&words);
        shares.entry(kind).or_default()[usize::from(accepted)] += 1;
        match kind {
            Kind::Session | Kind::Disordered | Kind::Built | Kind::NearOrder => assert!(accepted),
            Kind::Short => assert!(!fits),
            Kind::Zeros => assert!(words.iter().all(|&word| word == 0)),
            Kind::Near | Kind::Damaged | Kind::Noise => {}
        }
    }
    println!("refused and accepted: {shares:?}");
    assert_eq!(shares.len(), 9);
    // Damage and boundaries come out on both sides.
    for kind in [Kind::Near, Kind::Damaged] {
        assert!(shares[&kind].iter().all(|&count| count > 100), "{kind:?}");
    }
    let accepted: usize = shares.values().map(|share| share[1]).sum();
    assert!((3_600..5_400).contains(&accepted), "{accepted}");
}

#[test]
fn every_link_number_and_length() {
    let samples = samples(2, 6_000);
    let sound = |links: usize| {
        let of = move |sample: &&Sample| link_number(&sample.words) == Some(links);
        samples.iter().filter(of).filter(|s| verdict(&s.words))
    };
    for links in 1..=4 {
        let exact = sound(links).filter(|s| s.words.len() == array_words(links));
        assert!(exact.count() > 30, "{links}");
        let longer = sound(links).filter(|s| s.words.len() > array_words(links));
        assert!(longer.count() > 30, "{links}");
        let one_short = sound(links).filter(|s| s.words.len() + 1 == array_words(links));
        assert!(one_short.count() > 0, "{links}");
    }
    for length in [0, 1, 255, 256, 257, 295, 296, 297] {
        assert!(samples.iter().any(|s| s.words.len() == length), "{length}");
    }
}

/// How often each movement comes when an entry is inserted into each sound array.
#[test]
fn inserts_sweep_to_every_link_and_pack() {
    let mut movements: BTreeMap<(bool, usize, Option<usize>, bool), usize> = BTreeMap::new();
    let mut arrays = Arrays::new(3);
    for _ in 0..16_000 {
        let Sample { kind, words } = arrays.next_array();
        let Some(links) = link_number(&words) else {
            continue;
        };
        let outcome = expected(&words, Call::Insert(7, usize::MAX)).outcome;
        if outcome.answer == 0 {
            let session = matches!(kind, Kind::Session | Kind::Disordered);
            let moved = (session, links, outcome.swept_to, outcome.packed);
            *movements.entry(moved).or_default() += 1;
        }
    }
    println!("from a session, links, swept to, packed: {movements:?}");
    for links in 1..=4 {
        for target in 1..=links {
            for session in [true, false] {
                let many = movements.get(&(session, links, Some(target), false));
                assert!(many.is_some(), "{links} {target}");
            }
        }
        let packings = [true, false].map(|session| (session, links, None, true));
        let many = packings.map(|moved| movements.get(&moved).copied().unwrap_or(0));
        assert!(many.iter().all(|&many| many > 0), "{links} {many:?}");
    }
}

/// On the boundary the rule is kept, past it it is broken; and for each rule some
/// books break it alone, so that no other rule can stand in for it.
#[test]
fn boundaries_of_every_rule() {
    let mut rng = Rng::new(4);
    let mut alone: BTreeMap<(Rule, usize), usize> = BTreeMap::new();
    let mut kept: BTreeMap<Rule, usize> = BTreeMap::new();
    for turn in 0..9_600 {
        let rule = RULES[turn % 8];
        let links = 1 + (turn / 8) % if turn % 10 == 0 { 4 } else { 3 };
        let past = rng.one_in(2);
        let words = near_array(&mut rng, links, rule, past);
        let broken = broken_rules(&words);
        assert!(past || !broken.contains(&rule), "{rule:?}");
        if past && broken == [rule] {
            *alone.entry((rule, links)).or_default() += 1;
        }
        if !past && broken.is_empty() {
            *kept.entry(rule).or_default() += 1;
        }
    }
    println!("alone broken: {alone:?}\nkept: {kept:?}");
    for rule in RULES {
        assert!(kept[&rule] > 100, "{rule:?}");
        for links in 1..=3 {
            assert!(alone[&(rule, links)] > 20, "{rule:?} {links}");
        }
    }
}

/// Past the boundary the rule is broken, but where the queue had no such place.
#[test]
fn past_the_boundary_means_broken() {
    let mut rng = Rng::new(5);
    for rule in RULES {
        let mut broken = 0;
        for turn in 0..300 {
            let words = near_array(&mut rng, 1 + turn % 3, rule, true);
            broken += usize::from(broken_rules(&words).contains(&rule));
        }
        // A queue without any entry has no way that a mark could stand on.
        let least = if rule == Rule::Mark { 270 } else { 300 };
        assert!(broken >= least, "{rule:?} {broken}");
    }
}

#[test]
fn built_queues_are_sound_and_of_both_orders() {
    let mut rng = Rng::new(6);
    let mut ordered = [0; 2];
    for turn in 0..1_200 {
        let links = if turn % 50 == 0 { 4 } else { 1 + turn % 3 };
        let queue = built_queue(&mut rng, links);
        assert!(book_sound(&queue));
        assert_eq!(queue.links, links);
        ordered[usize::from(order_kept(&queue))] += 1;
        let words = random_array(&mut rng, &queue);
        assert!(verdict(&words));
        assert!(decode(&words).is_queue(&queue));
    }
    assert!(ordered.iter().all(|&many| many > 300), "{ordered:?}");
}

#[test]
fn boundary_of_the_order_rule() {
    let mut rng = Rng::new(7);
    let mut broken = 0;
    for turn in 0..600 {
        let links = 1 + turn % 3;
        assert!(order_kept(&near_order(&mut rng, links, false)));
        broken += usize::from(!order_kept(&near_order(&mut rng, links, true)));
    }
    // Not broken where nothing is less: heads of I and of A(1), and zeros.
    assert!(broken > 300, "{broken}");
}

#[test]
fn disorder_breaks_the_order_and_no_book() {
    let mut rng = Rng::new(8);
    let mut broken = 0;
    for turn in 0..400 {
        let mut queue = near_order(&mut rng, 1 + turn % 3, false);
        let before = queue.held();
        disorder(&mut rng, &mut queue);
        assert!(book_sound(&queue));
        assert_eq!(queue.held(), before);
        broken += usize::from(!order_kept(&queue));
    }
    assert!(broken > 150, "{broken}");
}

/// Each rule is broken by damage, and nothing but the book is changed.
#[test]
fn damage_of_every_kind() {
    let mut rng = Rng::new(9);
    let mut found: BTreeMap<Rule, usize> = BTreeMap::new();
    for turn in 0..3_000 {
        let queue = built_queue(&mut rng, 1 + turn % 3);
        let sound = random_array(&mut rng, &queue);
        let mut words = sound.clone();
        damage(&mut rng, &mut words);
        assert_eq!(words[69..], sound[69..]);
        for rule in broken_rules(&words) {
            *found.entry(rule).or_default() += 1;
        }
    }
    assert!(RULES.iter().all(|rule| found[rule] > 30), "{found:?}");
}

/// Arguments of calls: both sides of every limit.
#[test]
fn arguments_of_calls() {
    let mut arrays = Arrays::new(10);
    let words: Vec<u64> = (0..300).map(|n| n << 32).collect();
    let entries: Vec<u64> = (0..2_000).map(|_| arrays.some_entry(&words)).collect();
    let bad = entries.iter().filter(|&e| (e >> 24) as u8 > 2).count();
    assert!((100..700).contains(&bad), "{bad}");
    let equal = entries.iter().filter(|e| words.contains(e)).count();
    assert!(equal > 300, "{equal}");
    let work: Vec<usize> = (0..500).map(|_| arrays.some_work_words(2)).collect();
    for wanted in [16, 95, 96] {
        assert!(work.contains(&wanted), "{wanted}");
    }
    assert!(work.iter().any(|&many| many > 96));
    let setups: Vec<u64> = (0..500).map(|_| arrays.some_setup(536)).collect();
    for wanted in [0, 1, 2, 3, 4, 5, u64::MAX] {
        assert!(setups.contains(&wanted), "{wanted}");
    }
}
