//! A stand-in for the library, made of the reference, with faults to be chosen by
//! the variable GORGALHUT_FAULT. It shows that the comparison sees them.

mod joins;
mod lateness;

use crate::frames::ANSWERS;
use crate::tally::name;
use reference::array::built::{random_marks, random_starts};
use reference::array::calls::{expected, Call, Expected};
use reference::array::{decode, encode, lay, link_number, stretches, verdict, RULES};
use reference::frames::{answer_line, read_order, write_order, Order};
use reference::links::{array_words, most_held, BOOK_WORDS};
use reference::machine::{door, Outcome};
use reference::queue::{order_kept, Queue};
use reference::rng::Rng;
use std::ptr::null_mut;
use std::sync::atomic::{AtomicUsize, Ordering};
use std::sync::OnceLock;

/// Accepted calls since the last setup.
static SINCE_SETUP: AtomicUsize = AtomicUsize::new(0);

fn fault(name: &str) -> bool {
    static CHOSEN: OnceLock<String> = OnceLock::new();
    CHOSEN.get_or_init(|| std::env::var("GORGALHUT_FAULT").unwrap_or_default()) == name
}

/// A fault of one call alone, named after it and after what is wrong.
fn fault_of(call: Call, what: &str) -> bool {
    fault(&format!("{}-{what}", name(call)))
}

/// What is lent for a call, and where its results go.
struct Lent {
    array: *mut u64,
    words: usize,
    work: *mut u64,
    word: *mut u64,
    steps: *mut u64,
    packed: *mut bool,
}

#[no_mangle]
unsafe extern "C" fn gorgalhut_book_sound(array: *mut u64, words: usize) -> bool {
    let lent = std::slice::from_raw_parts_mut(array, words);
    if fault("book-writes") && words > 256 {
        lent[256] ^= 1;
    }
    if fault("book-of-255") && words == 255 {
        return true;
    }
    let book = decode(lent);
    let left_out = |rule| fault(&format!("rule-{rule:?}"));
    words >= BOOK_WORDS && RULES.iter().all(|&rule| left_out(rule) || book.keeps(rule))
}

#[no_mangle]
unsafe extern "C" fn gorgalhut_setup(
    array: *mut u64,
    words: usize,
    links: u64,
    word: *mut u64,
    steps: *mut u64,
) -> u8 {
    serve(Call::Setup(links), without_work(array, words, word, steps))
}

#[no_mangle]
unsafe extern "C" fn gorgalhut_insert(
    array: *mut u64,
    words: usize,
    work: *mut u64,
    work_words: usize,
    entry: u64,
    word: *mut u64,
    steps: *mut u64,
    packed: *mut bool,
) -> u8 {
    let lent = Lent {
        work,
        packed,
        ..without_work(array, words, word, steps)
    };
    if fault("work-behind") {
        *work.add(work_words) = 1;
    }
    serve(Call::Insert(entry, work_words), lent)
}

#[no_mangle]
unsafe extern "C" fn gorgalhut_take(
    array: *mut u64,
    words: usize,
    word: *mut u64,
    steps: *mut u64,
) -> u8 {
    serve(Call::Take, without_work(array, words, word, steps))
}

#[no_mangle]
unsafe extern "C" fn gorgalhut_look(
    array: *mut u64,
    words: usize,
    word: *mut u64,
    steps: *mut u64,
) -> u8 {
    serve(Call::Look, without_work(array, words, word, steps))
}

#[no_mangle]
unsafe extern "C" fn gorgalhut_held(
    array: *mut u64,
    words: usize,
    word: *mut u64,
    steps: *mut u64,
) -> u8 {
    serve(Call::Held, without_work(array, words, word, steps))
}

#[no_mangle]
unsafe extern "C" fn gorgalhut_audit(
    array: *mut u64,
    words: usize,
    word: *mut u64,
    steps: *mut u64,
) -> u8 {
    serve(Call::Audit, without_work(array, words, word, steps))
}

#[no_mangle]
unsafe extern "C" fn gorgalhut_read_frame(
    line: *const u8,
    bytes: usize,
    kind: *mut u8,
    value: *mut u64,
) -> u8 {
    let line = std::slice::from_raw_parts(line, bytes);
    let read = match read_order(line) {
        None if fault("small-letters") => read_order(&line.to_ascii_uppercase()),
        read => read,
    };
    let (code, number) = match read {
        Some(Order::Setup(links)) => (0, u64::from(links)),
        Some(Order::Insert(entry)) => (1, entry),
        Some(Order::Take) => (2, 0),
        Some(Order::Look) => (3, 0),
        Some(Order::Held) => (4, 0),
        Some(Order::Audit) => (5, 0),
        None => (0, 0),
    };
    *kind = code;
    *value = number;
    if read.is_some() {
        0
    } else {
        10
    }
}

#[no_mangle]
unsafe extern "C" fn gorgalhut_write_frame(
    kind: u8,
    value: u64,
    out: *mut u8,
    bytes: usize,
    written: *mut usize,
) -> u8 {
    let order = match (kind, value) {
        (0, _) if value < 256 || fault("links-cut") => Some(Order::Setup(value as u8)),
        (1, _) => Some(Order::Insert(value)),
        (2, 0) => Some(Order::Take),
        (3, 0) => Some(Order::Look),
        (4, 0) => Some(Order::Held),
        (5, 0) => Some(Order::Audit),
        _ => None,
    };
    lay_line(order.map(write_order), out, bytes, written)
}

#[no_mangle]
unsafe extern "C" fn gorgalhut_answer_line(
    answer: u8,
    word: u64,
    steps: u64,
    out: *mut u8,
    bytes: usize,
    written: *mut usize,
) -> u8 {
    let outcome = Outcome {
        answer,
        word,
        steps,
        ..Outcome::default()
    };
    let line = (steps <= u64::from(u32::MAX)).then(|| answer_line(&outcome) + "\n");
    lay_line(line, out, bytes, written)
}

/// Writes a line where there is one and room for it.
unsafe fn lay_line(line: Option<String>, out: *mut u8, bytes: usize, written: *mut usize) -> u8 {
    let room = bytes + usize::from(fault("line-behind"));
    let Some(line) = line.filter(|line| line.len() <= room) else {
        *written = 0;
        return 10;
    };
    std::ptr::copy_nonoverlapping(line.as_ptr(), out, line.len());
    if fault("line-ended") && line.len() < bytes {
        *out.add(line.len()) = 0;
    }
    *written = line.len();
    0
}

#[no_mangle]
unsafe extern "C" fn gorgalhut_tally_add(
    inserts: *mut u64,
    takes: *mut u64,
    steps: *mut u64,
    packings: *mut u64,
    call: u8,
    answer: u8,
    made: u64,
    packed: bool,
) -> bool {
    let means = ANSWERS.contains(&answer);
    let between = !means && answer <= ANSWERS[ANSWERS.len() - 1];
    let known = call <= 5 && (means || fault("tally-knows-between") && between);
    let done = answer == 0 || fault("tally-adds-between") && between;
    if (1..=5).contains(&call) && done {
        let one = |yes| u64::from(yes);
        *inserts = (*inserts).saturating_add(one(call == 1));
        *takes = (*takes).saturating_add(one(call == 2));
        *packings = (*packings).saturating_add(one(call == 1 && packed));
        *steps = if fault("tally-wraps") {
            (*steps).wrapping_add(made)
        } else {
            (*steps).saturating_add(made)
        };
    }
    known
}

fn without_work(array: *mut u64, words: usize, word: *mut u64, steps: *mut u64) -> Lent {
    Lent {
        array,
        words,
        work: null_mut(),
        word,
        steps,
        packed: null_mut(),
    }
}

unsafe fn serve(call: Call, lent: Lent) -> u8 {
    let words = std::slice::from_raw_parts_mut(lent.array, lent.words);
    let mut result = wrong_answer(words, call).map_or_else(
        || expected(words, call),
        |answer| Expected {
            outcome: Outcome::refused(answer),
            after: None,
        },
    );
    wrong_result(words, call, &mut result.outcome);
    if let Some(queue) = &mut result.after {
        wrong_queue(words, call, queue);
        write_queue(words, call, queue);
    }
    wrong_writes(call, &lent, &result);
    let outcome = result.outcome;
    if !(fault("word-unwritten") && outcome.answer != 0) {
        *lent.word = outcome.word;
    }
    *lent.steps = outcome.steps;
    if !lent.packed.is_null() {
        *lent.packed = outcome.packed && !fault("packed");
    }
    outcome.answer
}

/// Start places and marks of its own, different from call to call.
fn write_queue(words: &mut [u64], call: Call, queue: &Queue) {
    let mut rng = Rng::new(words[8] ^ words[9].rotate_left(20) ^ words[10]);
    let mut starts = random_starts(&mut rng, queue);
    let mut marks = random_marks(&mut rng, queue);
    if fault("stale-mark") && queue.held() > queue.insertion.len() {
        marks[1] = true;
    }
    if matches!(call, Call::Setup(_)) && !fault("setup-clears") {
        // Empty buffers: the book alone is written.
        let encoded = encode(queue, &starts, &marks);
        let buffers = stretches(queue.links).len();
        words[..=queue.links].copy_from_slice(&encoded[..=queue.links]);
        words[8..8 + buffers].copy_from_slice(&encoded[8..8 + buffers]);
        return;
    }
    if fault("setup-clears") {
        words[BOOK_WORDS..array_words(queue.links)].fill(0);
    }
    if fault("start-outside") && queue.buffers[0][1].is_empty() {
        starts[2] = stretches(queue.links)[2].capacity + 1;
    }
    lay(queue, &starts, &marks, words);
}

/// Checks in a wrong order, or none at all.
fn wrong_answer(words: &[u64], call: Call) -> Option<u8> {
    let links = link_number(words);
    let fits = links.is_some_and(|links| words.len() >= array_words(links));
    let Call::Insert(entry, work_words) = call else {
        let late = fault("length-last") && words.len() >= 296 && links.is_some();
        let setup = matches!(call, Call::Setup(_));
        return (late && !fits && !setup && !verdict(words)).then_some(4);
    };
    let full = || decode(words).queue().map(|queue| queue.held()) == links.map(most_held);
    match () {
        _ if !fits => None,
        _ if fault("door-first") && door(entry) > 2 => Some(7),
        _ if fault("work-last") && !verdict(words) => Some(4),
        _ if fault("full-first") && work_words >= most_held(links?) && verdict(words) && full() => {
            Some(5)
        }
        _ => None,
    }
}

fn wrong_result(words: &[u64], call: Call, outcome: &mut Outcome) {
    let accepted = outcome.answer == 0;
    let since = match call {
        Call::Setup(_) => {
            SINCE_SETUP.store(0, Ordering::Relaxed);
            0
        }
        _ => SINCE_SETUP.fetch_add(1, Ordering::Relaxed),
    };
    if (fault("steps") && outcome.steps > 30) || (fault("late") && accepted && since > 200) {
        outcome.steps += 1;
    }
    if fault("above-limit") && outcome.steps > 0 {
        outcome.steps += 200_000;
    }
    if fault("refusal-word") && outcome.answer == 6 {
        outcome.word = 1;
    }
    if fault_of(call, "answer") && outcome.answer == 4 {
        outcome.answer = 2;
    }
    if fault_of(call, "word") && accepted {
        outcome.word ^= 1;
    }
    if fault_of(call, "steps") && accepted {
        outcome.steps += 1;
    }
    let queue = || decode(words).queue().expect("an accepted array");
    if fault("held-without-i") && call == Call::Held && accepted {
        outcome.word -= queue().insertion.len() as u64;
    }
    if fault("audit-without-i") && call == Call::Audit && outcome.answer == 9 {
        let mut without = queue();
        without.insertion.clear();
        outcome.answer = if order_kept(&without) { 0 } else { 9 };
    }
}

/// Movements that are nearly right.
fn wrong_queue(words: &[u64], call: Call, queue: &mut Queue) {
    let before = || decode(words).queue().expect("an accepted array");
    if fault_of(call, "entries") {
        let mut buffers = queue.buffers.iter_mut().flatten();
        let last = buffers.find_map(|buffer| buffer.back_mut());
        last.into_iter().for_each(|entry| *entry ^= 1);
    }
    if fault_of(call, "counters") && queue.c[0] == 1 {
        queue.c[0] = 2;
    }
    match call {
        Call::Take if fault("take-ties") => {
            // I's entry is handed out where A(1)'s equal one should be.
            let old = before();
            if old.insertion.front() == old.buffers[0][0].front() {
                let kept = queue.insertion.pop_front();
                kept.into_iter()
                    .for_each(|entry| queue.buffers[0][0].push_front(entry));
            }
        }
        Call::Look if fault("look-removes") => {
            queue.buffers[0][0].pop_front();
        }
        Call::Look if fault("look-unchanged") => *queue = before(),
        Call::Insert(entry, _) => wrong_insert(&before(), entry, queue),
        _ => {}
    }
}

fn wrong_insert(old: &Queue, entry: u64, queue: &mut Queue) {
    let swept = queue.c != old.c;
    if fault("before-equal") && !swept {
        let mut insertion = old.insertion.clone();
        let at = insertion.iter().position(|&other| other >= entry);
        insertion.insert(at.unwrap_or(insertion.len()), entry);
        queue.insertion = insertion;
    }
    if fault("second-sweep") && swept && old.c[0] == 2 {
        queue.buffers[0][3].pop_back();
    }
    if fault("counters") && swept && queue.links > 1 {
        queue.c[0] = old.c[0];
    }
    if fault("poured") && queue.links > 1 && queue.c[1] == old.c[1] + 1 {
        // A(1) is poured into the destination instead of keeping its count.
        let poured = std::mem::take(&mut queue.buffers[0][0]);
        let destination = 4 + old.c[1] - 1;
        let room = 24 - queue.buffers[1][destination].len();
        queue.buffers[1][destination].extend(poured.iter().take(room));
    }
}

/// Writes where none are allowed.
unsafe fn wrong_writes(call: Call, lent: &Lent, result: &Expected) {
    let refused = result.outcome.answer != 0;
    let words = lent.words;
    if fault("refusal-writes") && refused && words > 0 {
        *lent.array.add(words - 1) ^= 1;
    }
    if fault("held-writes") && call == Call::Held && !refused {
        *lent.array.add(300) ^= 1;
    }
    if fault_of(call, "unused") && !refused {
        *lent.array.add(200) ^= 1;
    }
    if fault("before") && !refused {
        *lent.array.sub(1) = 1;
    }
    if fault("reads-behind") && !refused {
        // The steps are written again, so that only a tool that watches memory sees it.
        let read = lent.array.add(words).read_volatile();
        lent.steps.write_volatile(read);
    }
    if fault("word-behind") && !refused {
        *lent.word.add(1) = 1;
    }
    if fault("behind") && !refused {
        *lent.array.add(words) = 1;
    }
    if fault("work-refusal") && refused && matches!(call, Call::Insert(_, 1..)) {
        *lent.work ^= 1;
    }
    if let Some(queue) = &result.after {
        let stated = array_words(queue.links);
        if fault("past-length") && words > stated {
            *lent.array.add(stated) ^= 1;
        }
        if fault("unused-words") {
            *lent.array.add(200) ^= 1;
        }
    }
}
