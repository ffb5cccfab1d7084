//! Makes the report of one day after another, for an instruction counter to watch: tools/speed runs it.

mod aligned;

use gorgalhut::c::gorgalhut_lateness;
use reference::lateness::{report, Pair};
use reference::rng::Rng;
use std::process::ExitCode;

/// Every allocation begins at a page.
#[global_allocator]
static MEMORY: aligned::Aligned = aligned::Aligned;

const HELP: &str = "\
report KIND PAIRS DAYS     the reports of so many days, each of so many pairs
    KIND: usual, doors mixed, at most 50 ticks early or late; one-door, the same of left alone; whole-clock, any ticks, doors mixed
";

const SEED: u64 = 1;

/// In `usual` and `one-door` a door is at most so many ticks early or late.
const TICKS: u32 = 50;

const LEFT: u8 = 1;

/// More than the first cache that is simulated, whose misses are counted.
const CACHE: usize = 1 << 16;

#[derive(Clone, Copy, PartialEq, Eq)]
enum Kind {
    Usual,
    OneDoor,
    WholeClock,
}

fn kind(name: &str) -> Option<Kind> {
    match name {
        "usual" => Some(Kind::Usual),
        "one-door" => Some(Kind::OneDoor),
        "whole-clock" => Some(Kind::WholeClock),
        _ => None,
    }
}

fn tick(rng: &mut Rng) -> u32 {
    rng.word() as u32
}

fn pair(rng: &mut Rng, kind: Kind) -> Pair {
    let due = tick(rng);
    let near = due
        .wrapping_sub(TICKS)
        .wrapping_add(tick(rng) % (2 * TICKS + 1));
    let door = rng.below(3) as u8;
    Pair {
        due,
        acting: if kind == Kind::WholeClock {
            tick(rng)
        } else {
            near
        },
        door: if kind == Kind::OneDoor { LEFT } else { door },
    }
}

/// A report that is counted: the counter looks for this function's name.
#[inline(never)]
fn counted_report(due: &[u32], acting: &[u32], doors: &[u8], numbers: &mut [i64]) -> u8 {
    // SAFETY: pointers and lengths are those of slices.
    unsafe {
        gorgalhut_lateness(
            due.as_ptr(),
            due.len(),
            acting.as_ptr(),
            acting.len(),
            doors.as_ptr(),
            doors.len(),
            numbers.as_mut_ptr(),
            numbers.len(),
        )
    }
}

/// Reports on one day, none of which is in the cache; every number must be the independent program's.
fn report_on(pairs: &[Pair]) {
    let due: Vec<u32> = pairs.iter().map(|pair| pair.due).collect();
    let acting: Vec<u32> = pairs.iter().map(|pair| pair.acting).collect();
    let doors: Vec<u8> = pairs.iter().map(|pair| pair.door).collect();
    let mut numbers = [0; 18];
    std::hint::black_box(vec![1u8; CACHE]);
    let answer = counted_report(&due, &acting, &doors, &mut numbers);
    assert_eq!(answer, 0, "a report was refused");
    let rows = report(pairs).expect("the independent program refused a day");
    assert_eq!(numbers[..], rows.map(|row| row.numbers()).concat());
}

/// Does what is asked and says for how many days; nothing where it is not understood.
fn serve(words: &[String]) -> Option<usize> {
    let [name, pairs, days] = words else {
        return None;
    };
    let (kind, pairs, days): (Kind, usize, usize) =
        (kind(name)?, pairs.parse().ok()?, days.parse().ok()?);
    let mut rng = Rng::new(SEED);
    for _ in 0..days {
        let day: Vec<Pair> = (0..pairs).map(|_| pair(&mut rng, kind)).collect();
        report_on(&day);
    }
    Some(days)
}

fn main() -> ExitCode {
    let words: Vec<String> = std::env::args().skip(1).collect();
    // A thread's stack begins at a page; where the first stack begins depends on the environment.
    match std::thread::spawn(move || serve(&words)).join() {
        Ok(Some(days)) => {
            println!("days {days}");
            ExitCode::SUCCESS
        }
        Ok(None) => {
            eprint!("{HELP}");
            ExitCode::from(2)
        }
        Err(_) => ExitCode::FAILURE,
    }
}
