//! Two runs of every kind, for a join or a part.

use reference::rng::Rng;

/// The most entries of a run: s(4).
pub const MOST_ENTRIES: usize = 1_080;

/// How two runs lie to each other.
#[derive(Clone, Copy, Debug)]
enum Kind {
    Interleaving,
    /// Interleaving only for a while.
    Overlapping,
    /// One run is before the other's head.
    Before,
    /// The same, and its last entry equals that head.
    Seam,
    /// The same, and each of its entries does.
    AtHead,
    /// One run would be before the other's head but for one entry that is not its last.
    ButOne,
    Unsorted,
    /// Few different words, or one, or those at both ends.
    Few,
}

const KINDS: [Kind; 12] = [
    Kind::Interleaving,
    Kind::Overlapping,
    Kind::Before,
    Kind::Before,
    Kind::Seam,
    Kind::Seam,
    Kind::AtHead,
    Kind::ButOne,
    Kind::ButOne,
    Kind::Unsorted,
    Kind::Few,
    Kind::Few,
];

/// Two runs; which of them is before the other is as often the first as the second.
pub fn some_runs(rng: &mut Rng) -> [Vec<u64>; 2] {
    let kind = KINDS[rng.size(KINDS.len())];
    let cut = some_cut(rng);
    let mut lower = words(rng, 0, cut - 1);
    let mut upper = words(rng, cut, u64::MAX);
    match kind {
        Kind::Interleaving => [lower, upper] = [(); 2].map(|()| ascending(words(rng, 0, cut))),
        Kind::Overlapping => {
            upper = ascending(words(rng, cut / 2, u64::MAX / 2 + cut / 2));
            lower.sort_unstable();
        }
        Kind::Before => lay_out(rng, &mut lower, &mut upper),
        Kind::Seam => {
            lay_out(rng, &mut lower, &mut upper);
            meet(&mut lower, &upper);
        }
        Kind::AtHead => lower.fill(upper.first().copied().unwrap_or(cut)),
        Kind::ButOne => {
            lay_out(rng, &mut lower, &mut upper);
            hold_back(rng, &mut lower, &upper);
        }
        Kind::Unsorted => [lower, upper] = [(); 2].map(|()| words(rng, 0, cut)),
        Kind::Few => [lower, upper] = few(rng),
    }
    if rng.one_in(2) {
        [lower, upper]
    } else {
        [upper, lower]
    }
}

/// A word above all words of one run and above none of the other: anything but 0,
/// often near an end.
fn some_cut(rng: &mut Rng) -> u64 {
    match rng.below(4) {
        0 => 1 + rng.below(60),
        1 => u64::MAX - rng.below(60),
        _ => rng.word().max(1),
    }
}

fn some_length(rng: &mut Rng) -> usize {
    match rng.below(40) {
        0 | 1 => 0,
        2..=4 => 1,
        5 => rng.size(MOST_ENTRIES + 1),
        _ => 2 + rng.size(39),
    }
}

/// A run of any length with words from `low` to `high`.
fn words(rng: &mut Rng, low: u64, high: u64) -> Vec<u64> {
    let length = some_length(rng);
    (0..length)
        .map(|_| low + rng.below((high - low).saturating_add(1)))
        .collect()
}

fn ascending(mut run: Vec<u64>) -> Vec<u64> {
    run.sort_unstable();
    run
}

/// Mostly ascending: what is before a head need not be.
fn lay_out(rng: &mut Rng, lower: &mut [u64], upper: &mut [u64]) {
    for run in [lower, upper] {
        if !rng.one_in(4) {
            run.sort_unstable();
        }
    }
}

fn meet(lower: &mut [u64], upper: &[u64]) {
    if let (Some(last), Some(&head)) = (lower.last_mut(), upper.first()) {
        *last = head;
    }
}

/// Puts an entry at the other's head or just behind it; at it, only the second run is
/// held back.
fn hold_back(rng: &mut Rng, lower: &mut [u64], upper: &[u64]) {
    if let ([held_back @ .., _], Some(&head)) = (lower, upper.first()) {
        if !held_back.is_empty() {
            held_back[rng.size(held_back.len())] = head.saturating_add(rng.below(3));
        }
    }
}

fn few(rng: &mut Rng) -> [Vec<u64>; 2] {
    let all = [0, u64::MAX, 1, u64::MAX - 1, rng.word(), rng.word()];
    let different = [1, 1, 2, 3, 6][rng.size(5)];
    let sorted = rng.one_in(2);
    let from = rng.size(all.len());
    [(); 2].map(|()| {
        let chosen = (0..some_length(rng)).map(|_| (from + rng.size(different)) % all.len());
        let run = chosen.map(|at| all[at]).collect();
        if sorted {
            ascending(run)
        } else {
            run
        }
    })
}
