//! Two runs joined, or a part of them merged, again and again.

use crate::c::{joins_join, joins_part};
use reference::rng::Rng;

/// The words of a run's random entries are below this.
const RANGE: u64 = 1 << 48;

const SEED: u64 = 1;

/// Two ascending runs of so many entries each, by the name of how they lie to each other.
pub fn made(name: &str, entries: usize) -> Option<[Vec<u64>; 2]> {
    let mut rng = Rng::new(SEED);
    let many = entries as u64;
    Some(match name {
        "interleaving" => [0, 1].map(|from| (0..many).map(|at| 2 * at + from).collect()),
        "first" => [0, many].map(|from| (from..from + many).collect()),
        "second" => [many, 0].map(|from| (from..from + many).collect()),
        "random" => [(); 2].map(|()| {
            let mut run: Vec<u64> = (0..many).map(|_| rng.below(RANGE)).collect();
            run.sort_unstable();
            run
        }),
        _ => return None,
    })
}

/// A join that is counted: the counter looks for this function's name.
#[inline(never)]
fn counted_join(first: &[u64], second: &[u64], out: &mut [u64]) -> usize {
    let mut handed = 0;
    let rest: &mut [u64] = &mut [];
    // SAFETY: each pointer is of memory that is lent for the call.
    let done = unsafe {
        joins_join(
            first.as_ptr(),
            first.len(),
            second.as_ptr(),
            second.len(),
            out.as_mut_ptr(),
            out.len(),
            rest.as_mut_ptr(),
            rest.len(),
            &mut handed,
        )
    };
    assert!(done, "a join was refused");
    handed
}

/// A part that is counted.
#[inline(never)]
fn counted_part(first: &[u64], second: &[u64], out: &mut [u64]) -> usize {
    let mut of_first = 0;
    // SAFETY: each pointer is of memory that is lent for the call.
    let done = unsafe {
        joins_part(
            first.as_ptr(),
            first.len(),
            second.as_ptr(),
            second.len(),
            out.as_mut_ptr(),
            out.len(),
            &mut of_first,
        )
    };
    assert!(done, "a part was refused");
    of_first
}

/// A sum with one more word; the order in which words come makes a difference.
fn mixed(sum: u64, word: u64) -> u64 {
    sum.rotate_left(5).wrapping_mul(0x9E37_79B9_7F4A_7C15) ^ word
}

/// Calls so often; sums up the numbers that come back and what is laid at last.
fn summed(
    call: fn(&[u64], &[u64], &mut [u64]) -> usize,
    [first, second]: [Vec<u64>; 2],
    out_words: usize,
    calls: usize,
) -> u64 {
    let mut out = vec![0; out_words];
    let numbers = (0..calls).fold(0, |sum, _| {
        mixed(sum, call(&first, &second, &mut out) as u64)
    });
    out.into_iter().fold(numbers, mixed)
}

/// Joins two runs, with no room for what is handed back.
pub fn join(runs: [Vec<u64>; 2], calls: usize) -> u64 {
    let both = runs[0].len() + runs[1].len();
    summed(counted_join, runs, both, calls)
}

/// Merges half of two runs' entries.
pub fn part(runs: [Vec<u64>; 2], calls: usize) -> u64 {
    let half = runs[0].len();
    summed(counted_part, runs, half, calls)
}
