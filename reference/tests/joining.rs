//! The joining of two runs and a part of them, where little decides.

use reference::joining::{join, part, Joined, Part};

fn check_join(first: &[u64], second: &[u64], laid: &[u64], outlasting: usize, rest: &[u64]) {
    let joined = Joined {
        laid: laid.to_vec(),
        outlasting,
        rest,
    };
    assert_eq!(join(first, second), joined, "{first:?} and {second:?}");
}

fn check_part(first: &[u64], second: &[u64], laid: &[u64], of_first: usize) {
    let wanted = Part {
        laid: laid.to_vec(),
        first: of_first,
    };
    let found = part(first, second, laid.len());
    assert_eq!(found, wanted, "{first:?} and {second:?}");
}

#[test]
fn interleaving_runs() {
    check_join(&[1, 4, 7], &[2, 5, 9], &[1, 2, 4, 5, 7], 1, &[9]);
    check_join(&[1, 4, 9], &[2, 5, 7], &[1, 2, 4, 5, 7], 0, &[9]);
    check_part(&[1, 4, 7], &[2, 5, 9], &[1, 2, 4], 2);
}

/// "at equal heads the first input's": a second run goes before the first as a whole
/// only where it is strictly below.
#[test]
fn equal_heads() {
    check_join(&[5, 5], &[5, 6], &[5, 5], 1, &[5, 6]);
    check_join(&[5, 6], &[5, 5], &[5, 5, 5], 0, &[6]);
    check_join(&[5, 6], &[4, 5], &[4, 5, 5], 0, &[6]);
    check_join(&[5, 5], &[5, 5, 5], &[5, 5], 1, &[5, 5, 5]);
    check_part(&[5, 5], &[5, 6], &[5], 1);
    check_part(&[5, 6], &[5, 5], &[5, 5, 5], 1);
    check_part(&[5, 5], &[5, 5, 5], &[5, 5, 5], 2);
}

#[test]
fn one_run_before_the_other() {
    check_join(&[1, 2], &[2, 3], &[1, 2], 1, &[2, 3]);
    check_join(&[3, 4], &[1, 2], &[1, 2], 0, &[3, 4]);
    check_part(&[1, 2], &[3, 4], &[1, 2, 3], 2);
    check_part(&[3, 4], &[1, 2], &[1], 0);
}

/// Nothing is moved where a run is empty from the start; only so both end together.
#[test]
fn empty_runs() {
    check_join(&[], &[2, 1], &[], 1, &[2, 1]);
    check_join(&[2, 1], &[], &[], 0, &[2, 1]);
    check_join(&[], &[], &[], 0, &[]);
    check_part(&[], &[2, 1], &[2, 1], 0);
    check_part(&[2, 1], &[], &[2], 1);
    check_part(&[], &[], &[], 0);
    check_part(&[1], &[2], &[], 0);
}

#[test]
fn one_entry() {
    check_join(&[1], &[2], &[1], 1, &[2]);
    check_join(&[2], &[1], &[1], 0, &[2]);
    check_join(&[2], &[2], &[2], 1, &[2]);
    check_join(&[u64::MAX], &[0, u64::MAX], &[0, u64::MAX], 1, &[u64::MAX]);
    check_part(&[2], &[1], &[1, 2], 1);
}

/// Only heads are looked at: a large entry in the middle holds back what is behind it.
#[test]
fn unsorted_runs() {
    check_join(&[1, 9, 2], &[5, 0], &[1, 5, 0], 0, &[9, 2]);
    check_join(&[5, 0], &[1, 9, 2], &[1, 5, 0], 1, &[9, 2]);
    check_join(&[3, 1, 2], &[4, 0], &[3, 1, 2], 1, &[4, 0]);
    check_part(&[1, 9, 2], &[5, 0], &[1, 5, 0, 9], 2);
}
