//! The joining and the parting of two runs, each with faults of its own.

use super::fault;
use reference::joining::{join, part, Joined, Part};
use std::slice::{from_raw_parts, from_raw_parts_mut};

#[derive(Clone, Copy)]
enum Function {
    Join,
    Part,
}

impl Function {
    /// A fault of one function alone, named after it and after what is wrong.
    fn fault(self, what: &str) -> bool {
        let name = match self {
            Function::Join => "join",
            Function::Part => "part",
        };
        fault(&format!("{name}-{what}"))
    }
}

#[no_mangle]
unsafe extern "C" fn joins_join(
    xs: *const u64,
    xs_words: usize,
    ys: *const u64,
    ys_words: usize,
    out: *mut u64,
    out_words: usize,
    rest: *mut u64,
    rest_words: usize,
    handed: *mut usize,
) -> bool {
    let runs = [from_raw_parts(xs, xs_words), from_raw_parts(ys, ys_words)];
    let out = from_raw_parts_mut(out, out_words);
    let done = xs_words + ys_words <= out_words;
    let (laid, left) = if done {
        let joined = nearly_joined(runs);
        (joined.laid, joined.rest)
    } else {
        (Vec::new(), &runs[0][..0])
    };
    lay(Function::Join, done, &laid, out);
    hand_back(left, from_raw_parts_mut(rest, rest_words));
    *handed = left.len();
    write_run(Function::Join, xs, xs_words);
    done
}

#[no_mangle]
unsafe extern "C" fn joins_part(
    xs: *const u64,
    xs_words: usize,
    ys: *const u64,
    ys_words: usize,
    out: *mut u64,
    out_words: usize,
    first: *mut usize,
) -> bool {
    let runs = [from_raw_parts(xs, xs_words), from_raw_parts(ys, ys_words)];
    let out = from_raw_parts_mut(out, out_words);
    let done = out_words <= xs_words + ys_words;
    let parted = nearly_parted(runs, if done { out_words } else { 0 });
    lay(Function::Part, done, &parted.laid, out);
    *first = parted.first;
    write_run(Function::Part, xs, xs_words);
    done
}

/// The number of the run that a fault takes to be before the other's head.
fn wrong_block(function: Function, [first, second]: [&[u64]; 2]) -> Option<usize> {
    let (&first_head, &second_head) = (first.first()?, second.first()?);
    if function.fault("block-by-last") {
        let before = [*first.last()? <= second_head, *second.last()? < first_head];
        return before.iter().position(|&whole| whole);
    }
    let not_above = second.iter().all(|&entry| entry <= first_head);
    (function.fault("second-at-equal") && not_above).then_some(1)
}

fn nearly_joined(runs: [&[u64]; 2]) -> Joined<'_> {
    if let Some(run) = wrong_block(Function::Join, runs) {
        return Joined {
            laid: runs[run].to_vec(),
            outlasting: 1 - run,
            rest: runs[1 - run],
        };
    }
    let mut joined = join(runs[0], runs[1]);
    let (other, many) = (runs[1 - joined.outlasting], joined.rest.len());
    if fault("join-rest-of-the-other") && other.len() >= many {
        joined.rest = &other[other.len() - many..];
    }
    joined
}

fn nearly_parted(runs: [&[u64]; 2], many: usize) -> Part {
    let mut parted = part(runs[0], runs[1], many);
    if let Some(run) = wrong_block(Function::Part, runs) {
        let laid = [runs[run], runs[1 - run]].concat();
        let of_run = runs[run].len().min(many);
        parted = Part {
            laid: laid[..many].to_vec(),
            first: [of_run, many - of_run][run],
        };
    }
    if fault("part-stops") {
        parted.laid.truncate(join(runs[0], runs[1]).laid.len());
    }
    if fault("part-first-off-by-one") && parted.first > 8 {
        parted.first += 1;
    }
    parted
}

/// Lays the entries at the beginning of `out`, or writes where that is not allowed.
unsafe fn lay(function: Function, done: bool, laid: &[u64], out: &mut [u64]) {
    out[..laid.len()].copy_from_slice(laid);
    let too_many = if done {
        "laid-behind"
    } else {
        "refusal-writes"
    };
    if function.fault(too_many) && laid.len() < out.len() {
        out[laid.len()] ^= 1;
    }
    if function.fault("out-behind") {
        *out.as_mut_ptr().add(out.len()) = 1;
    }
}

/// Copies the entries to the beginning of `rest` if it has room for them.
fn hand_back(left: &[u64], rest: &mut [u64]) {
    let many = left.len();
    if many <= rest.len() {
        rest[..many].copy_from_slice(left);
    } else if fault("join-rest-cut") {
        rest.copy_from_slice(&left[..rest.len()]);
    }
    if fault("join-rest-behind") && many < rest.len() {
        rest[many] ^= 1;
    }
}

/// Writes into a run that is lent for reading.
unsafe fn write_run(function: Function, run: *const u64, words: usize) {
    if function.fault("writes-run") && words > 0 {
        *run.cast_mut() ^= 1;
    }
}
