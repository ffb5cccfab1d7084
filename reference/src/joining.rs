//! Two runs of entries, sorted or not: their joining, and a merged part of them.

/// "One merge step moves the smaller head; at equal heads the first input's." The
/// number of the input whose head it is; none if both are empty.
pub fn smaller_head(heads: [Option<u64>; 2]) -> Option<usize> {
    match heads {
        [None, None] => None,
        [Some(first), Some(second)] if second < first => Some(1),
        [Some(_), _] => Some(0),
        [None, Some(_)] => Some(1),
    }
}

/// One merge step: the entry moved and the number of its run.
fn merge_step(runs: &mut [&[u64]; 2]) -> Option<(u64, usize)> {
    let chosen = smaller_head(runs.map(|run| run.first().copied()))?;
    let (&entry, behind) = runs[chosen].split_first()?;
    runs[chosen] = behind;
    Some((entry, chosen))
}

/// What the joining of two runs gives.
#[derive(Clone, Debug, PartialEq, Eq)]
pub struct Joined<'a> {
    /// The entries that merge steps move until one run ends.
    pub laid: Vec<u64>,
    /// The number of the run whose rest is handed back.
    pub outlasting: usize,
    pub rest: &'a [u64],
}

/// "The joining of two runs hands back the unread rest of the run that outlasts the
/// other, or the empty end of the first if both end together."
pub fn join<'a>(first: &'a [u64], second: &'a [u64]) -> Joined<'a> {
    let mut runs = [first, second];
    let mut laid = Vec::new();
    while runs.iter().all(|run| !run.is_empty()) {
        laid.extend(merge_step(&mut runs).map(|(entry, _)| entry));
    }
    let outlasting = usize::from(!runs[1].is_empty());
    Joined {
        laid,
        outlasting,
        rest: runs[outlasting],
    }
}

/// What a part of two runs holds.
#[derive(Clone, Debug, PartialEq, Eq)]
pub struct Part {
    pub laid: Vec<u64>,
    /// How many of the entries laid are the first run's.
    pub first: usize,
}

/// The first `many` entries that merge steps move from two runs, which have as many;
/// they go on from one run alone once the other is empty.
pub fn part(first: &[u64], second: &[u64], many: usize) -> Part {
    let mut runs = [first, second];
    let moved: Vec<(u64, usize)> = (0..many).map_while(|_| merge_step(&mut runs)).collect();
    Part {
        laid: moved.iter().map(|&(entry, _)| entry).collect(),
        first: moved.iter().filter(|&&(_, run)| run == 0).count(),
    }
}
