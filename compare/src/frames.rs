//! Lines read and written, and the tally, beside the independent program's.

use crate::lent::Lent;
use crate::library::{self, Line, TallyGot};
use crate::options::Options;
use crate::tally::Tally;
use reference::frames::{answer_line, read_order, write_order, Order};
use reference::machine::Outcome;
use reference::rng::Rng;

/// What a reader or writer refuses with.
const NOT_A_FRAME: u8 = 10;

/// The numbers that answers have; any other byte means nothing.
pub const ANSWERS: [u8; 10] = [0, 1, 2, 3, 4, 5, 6, 7, 9, 10];

pub fn compare(options: &Options, tally: &mut Tally) -> Result<(), String> {
    let mut rng = Rng::new(options.seed);
    let mut bytes = Lent::new(options.exact);
    let mut day = [0; 4];
    for number in 0..options.calls {
        compare_line(&mut rng, &mut bytes)
            .and_then(|()| compare_order(&mut rng, &mut bytes))
            .and_then(|()| compare_answer(&mut rng, &mut bytes))
            .and_then(|()| compare_tally(&mut rng, &mut day))
            .map_err(|difference| format!("line {number}: {difference}"))?;
        tally.add_line();
    }
    Ok(())
}

/// An order's code and the number in its body.
fn parts(order: Order) -> (u8, u64) {
    match order {
        Order::Setup(links) => (0, u64::from(links)),
        Order::Insert(entry) => (1, entry),
        Order::Take => (2, 0),
        Order::Look => (3, 0),
        Order::Held => (4, 0),
        Order::Audit => (5, 0),
    }
}

fn some_order(rng: &mut Rng) -> Order {
    match rng.below(8) {
        0 => Order::Setup(rng.word() as u8),
        1..=3 => Order::Insert(rng.word()),
        4 => Order::Take,
        5 => Order::Look,
        6 => Order::Held,
        _ => Order::Audit,
    }
}

/// A frame, one with a byte changed, cut or longer, or any bytes.
fn some_line(rng: &mut Rng) -> Vec<u8> {
    let mut line = write_order(some_order(rng)).into_bytes();
    match rng.below(10) {
        0..=4 => {}
        5 => {
            let at = rng.size(line.len());
            line[at] = rng.word() as u8;
        }
        6 => {
            let at = rng.size(line.len());
            line[at] = b"0123456789ABCDEFabcdef/:@G`"[rng.size(27)];
        }
        7 => line.truncate(rng.size(line.len() + 1)),
        8 => line.extend((0..1 + rng.size(4)).map(|_| b"0A"[rng.size(2)])),
        _ => {
            let length = rng.size(40);
            line = (0..length).map(|_| rng.word() as u8).collect();
        }
    }
    line
}

fn compare_line(rng: &mut Rng, bytes: &mut Lent<u8>) -> Result<(), String> {
    let line = some_line(rng);
    bytes.load(&line);
    let got = library::read_frame(bytes);
    let wanted = match read_order(&line) {
        Some(order) => (0, parts(order)),
        None => (NOT_A_FRAME, (0, 0)),
    };
    if got != (wanted.0, wanted.1 .0, wanted.1 .1) || bytes.contents() != line {
        return Err(format!("{line:x?}: expected {wanted:x?}, got {got:x?}"));
    }
    check_beside(bytes)
}

fn check_beside(bytes: &Lent<u8>) -> Result<(), String> {
    match bytes.written_beside() {
        Some(where_to) => Err(format!("written {where_to} the bytes")),
        None => Ok(()),
    }
}

/// A code and a number, mostly of an order.
fn some_parts(rng: &mut Rng) -> (u8, u64) {
    let (kind, value) = parts(some_order(rng));
    match rng.below(8) {
        0 => (rng.below(8) as u8, value),
        1 => (kind, [0, 1, 255, 256, 257, rng.word()][rng.size(6)]),
        2 => (rng.word() as u8, rng.below(3)),
        _ => (kind, value),
    }
}

/// The line of a code and a number, if there is one.
fn line_of(kind: u8, value: u64) -> Option<String> {
    Some(write_order(match kind {
        0 => Order::Setup(value.try_into().ok()?),
        1 => Order::Insert(value),
        _ if value != 0 => return None,
        2 => Order::Take,
        3 => Order::Look,
        4 => Order::Held,
        5 => Order::Audit,
        _ => return None,
    }))
}

fn compare_order(rng: &mut Rng, bytes: &mut Lent<u8>) -> Result<(), String> {
    let (kind, value) = some_parts(rng);
    let before = some_buffer(rng, 22);
    bytes.load(&before);
    let got = library::write_frame(kind, value, bytes);
    check_line(&before, line_of(kind, value), got, bytes)
        .map_err(|difference| format!("write {kind} {value:x}: {difference}"))
}

fn compare_answer(rng: &mut Rng, bytes: &mut Lent<u8>) -> Result<(), String> {
    let outcome = Outcome {
        answer: rng.word() as u8,
        word: rng.word() >> rng.below(64),
        steps: rng.word() >> rng.below(64),
        ..Outcome::default()
    };
    let before = some_buffer(rng, 32);
    bytes.load(&before);
    let got = library::answer_line(outcome.answer, outcome.word, outcome.steps, bytes);
    let fits = outcome.steps <= u64::from(u32::MAX);
    let line = fits.then(|| answer_line(&outcome) + "\n");
    check_line(&before, line, got, bytes)
        .map_err(|difference| format!("answer line of {outcome:x?}: {difference}"))
}

/// Any bytes, as many as a line needs, one less or more, or anything up to `most`.
fn some_buffer(rng: &mut Rng, most: usize) -> Vec<u8> {
    let lengths = [2, 4, 18, 27];
    let length = match rng.below(3) {
        0 => lengths[rng.size(4)] + rng.size(3) - 1,
        1 => most,
        _ => rng.size(most),
    };
    (0..length).map(|_| rng.word() as u8).collect()
}

fn check_line(
    before: &[u8],
    line: Option<String>,
    got: Line,
    bytes: &Lent<u8>,
) -> Result<(), String> {
    let mut after = before.to_vec();
    let wanted = match line.filter(|line| line.len() <= before.len()) {
        Some(line) => {
            after[..line.len()].copy_from_slice(line.as_bytes());
            Line {
                answer: 0,
                written: line.len(),
            }
        }
        None => Line {
            answer: NOT_A_FRAME,
            written: 0,
        },
    };
    if got != wanted {
        return Err(format!("expected {wanted:?}, got {got:?}"));
    }
    if bytes.contents() != after {
        return Err(format!("expected {after:x?}, got {:x?}", bytes.contents()));
    }
    check_beside(bytes)
}

/// What a call of these numbers adds: inserts, takes, steps, packings.
fn added(call: u8, steps: u64, packed: bool) -> [u64; 4] {
    match call {
        1 => [1, 0, steps, u64::from(packed)],
        2 => [0, 1, steps, 0],
        3..=5 => [0, 0, steps, 0],
        _ => [0; 4],
    }
}

fn compare_tally(rng: &mut Rng, day: &mut [u64; 4]) -> Result<(), String> {
    if rng.one_in(50) {
        *day = [(); 4].map(|()| [0, 5, u64::MAX - 1, u64::MAX, rng.word()][rng.size(5)]);
    }
    let call = if rng.one_in(8) {
        rng.word() as u8
    } else {
        rng.below(7) as u8
    };
    let answer = match rng.below(4) {
        0 => rng.word() as u8,
        1 => rng.below(13) as u8,
        _ => 0,
    };
    let (steps, packed) = (rng.word() >> rng.below(64), rng.one_in(2));
    let known = call <= 5 && ANSWERS.contains(&answer);
    let more = if known && answer == 0 {
        added(call, steps, packed)
    } else {
        [0; 4]
    };
    let mut fields = *day;
    for (field, more) in fields.iter_mut().zip(more) {
        *field = field.saturating_add(more);
    }
    let wanted = TallyGot { known, fields };
    let got = library::tally_add(*day, call, answer, steps, packed);
    if got != wanted {
        return Err(format!(
            "tally {day:x?}, call {call}, answer {answer}, steps {steps:x}, {packed}: expected {wanted:x?}, got {got:x?}"
        ));
    }
    *day = fields;
    Ok(())
}
