//! What the generated sessions reach.

mod common;

use common::{lines_of, run_lines};
use reference::frames::{read_order, Order};
use reference::generate::session;
use reference::machine::{Machine, Outcome};
use reference::options::Options;
use std::collections::BTreeSet;

fn options(seed: u64, lines: usize, links: Option<usize>) -> Options {
    Options {
        seed,
        lines,
        links,
        generate: true,
        ..Options::default()
    }
}

fn outcomes(options: &Options, bytes: &[u8]) -> Vec<Outcome> {
    run_lines(&mut Machine::zeros(options.array, options.work), bytes)
}

#[test]
fn same_seed_same_session() {
    for plain in [false, true] {
        let with_seed = |seed| Options {
            plain,
            ..options(seed, 2_000, None)
        };
        assert_eq!(session(&with_seed(5)), session(&with_seed(5)));
        assert_ne!(session(&with_seed(5)), session(&with_seed(6)));
    }
}

#[test]
fn as_many_lines_as_asked() {
    assert!(session(&options(1, 0, None)).is_empty());
    let mut endless = 0;
    for seed in 1..=60 {
        let lines = 1 + seed as usize % 50;
        let bytes = session(&options(seed, lines, None));
        assert_eq!(lines_of(&bytes).len(), lines, "seed {seed}");
        endless += usize::from(bytes.last() != Some(&b'\n'));
    }
    // Sometimes the last line has no end, sometimes it has.
    assert!((5..=55).contains(&endless), "{endless}");
}

/// How often an insert swept to each link, and packed.
fn movements(outcomes: &[Outcome]) -> ([usize; 4], usize) {
    let mut sweeps = [0; 4];
    for link in outcomes.iter().filter_map(|outcome| outcome.swept_to) {
        sweeps[link - 1] += 1;
    }
    let packings = outcomes.iter().filter(|outcome| outcome.packed).count();
    (sweeps, packings)
}

/// Each session of some thousand lines sweeps to every link and packs.
#[test]
fn sessions_sweep_to_every_link_and_pack() {
    for (links, lines) in [(1, 2_000), (2, 2_000), (3, 5_000)] {
        for seed in 1..=10 {
            let options = options(seed, lines, Some(links));
            let outcomes = outcomes(&options, &session(&options));
            let (sweeps, packings) = movements(&outcomes);
            let many = |answer| outcomes.iter().filter(|o| o.answer == answer).count();
            println!(
                "links {links} lines {lines} seed {seed}: sweeps {sweeps:?} packings {packings} \
                 full {} empty {} damaged {}",
                many(5),
                many(6),
                many(10)
            );
            assert!(
                sweeps[..links].iter().all(|&count| count > 0),
                "seed {seed}"
            );
            assert!(packings > 0, "links {links} seed {seed}");
            assert!(
                many(5) > 0 && many(10) > lines / 100,
                "links {links} seed {seed}"
            );
        }
    }
}

/// 0 to 7 and 10; 9 is out of reach of frames, 3 needs a short work area.
#[test]
fn sessions_meet_every_answer() {
    let mut by_default = BTreeSet::new();
    let mut with_less = BTreeSet::new();
    for seed in 1..=5 {
        let options = options(seed, 3_000, None);
        let less = Options {
            work: 95,
            ..options.clone()
        };
        by_default.extend(
            outcomes(&options, &session(&options))
                .iter()
                .map(|o| o.answer),
        );
        with_less.extend(outcomes(&less, &session(&less)).iter().map(|o| o.answer));
    }
    assert_eq!(by_default, BTreeSet::from([0, 1, 2, 4, 5, 6, 7, 10]));
    assert_eq!(with_less, BTreeSet::from([0, 1, 2, 3, 4, 5, 6, 7, 10]));
}

#[test]
fn link_number_is_kept_where_it_is_fixed() {
    for links in 1..=3 {
        let options = options(3, 3_000, Some(links));
        let mut machine = Machine::zeros(options.array, options.work);
        for line in lines_of(&session(&options)) {
            run_lines(&mut machine, line);
            let set_up = machine.queue.as_ref().map(|queue| queue.links);
            assert!(set_up.is_none() || set_up == Some(links));
        }
        assert!(machine.queue.is_some());
    }
}

/// All six orders, damaged lines of each kind, and lines of thousands of bytes.
#[test]
fn sessions_hold_all_kinds_of_lines() {
    let bytes = session(&options(2, 20_000, None));
    let lines = lines_of(&bytes);
    let orders: Vec<Option<Order>> = lines.iter().map(|line| read_order(line)).collect();
    for kind in [Order::Take, Order::Look, Order::Held, Order::Audit] {
        assert!(orders.contains(&Some(kind)), "{kind:?}");
    }
    assert!(orders
        .iter()
        .any(|order| matches!(order, Some(Order::Setup(1..=3)))));
    assert!(orders
        .iter()
        .any(|order| matches!(order, Some(Order::Insert(_)))));
    let damaged: Vec<&[u8]> = lines
        .iter()
        .copied()
        .filter(|line| read_order(line).is_none())
        .collect();
    let any = |test: &dyn Fn(&[u8]) -> bool| damaged.iter().any(|line| test(line));
    assert!(any(&|line| line.is_empty()));
    assert!(any(&|line| line.len() > 5_000));
    assert!(any(&|line| line.ends_with(b"\r")));
    assert!(any(
        &|line| line.len() == 18 && line.iter().any(u8::is_ascii_lowercase)
    ));
    assert!(any(&|line| line.contains(&b' ') && line.len() < 20));
    assert!(any(
        &|line| line.len() == 17 && line.iter().all(u8::is_ascii_hexdigit)
    ));
    assert!(any(
        &|line| line.len() == 20 && line.iter().all(u8::is_ascii_hexdigit)
    ));
    assert!(any(&|line| std::str::from_utf8(line).is_err()));
}

/// A third of the inserts at least bring an entry that came before.
fn many_ties(orders: &[Order]) -> bool {
    let inserts = orders.iter().filter_map(|order| match order {
        Order::Insert(entry) => Some(*entry),
        _ => None,
    });
    let different: BTreeSet<u64> = inserts.clone().collect();
    let count = inserts.count();
    count > 0 && 3 * (count - different.len()) >= count
}

#[test]
fn plain_sessions_hold_valid_orders_with_ties() {
    let mut packings = 0;
    for seed in 1..=40 {
        let options = Options {
            plain: true,
            ..options(seed, 300, None)
        };
        let bytes = session(&options);
        assert_eq!(lines_of(&bytes).len(), 300);
        let orders: Vec<Order> = lines_of(&bytes)
            .into_iter()
            .map(|line| read_order(line).expect("a valid order"))
            .collect();
        assert!(matches!(orders[0], Order::Setup(1..=3)), "seed {seed}");
        assert!(many_ties(&orders), "seed {seed}");
        let outcomes = outcomes(&options, &bytes);
        assert!(outcomes.iter().all(|o| [0, 5, 6].contains(&o.answer)));
        packings += movements(&outcomes).1;
    }
    assert!(packings > 20, "{packings}");
}
