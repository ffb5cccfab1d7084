//! Two runs joined and parted, beside the independent program's.

use crate::lent::Lent;
use crate::library::joins::{self, JoinGot, Runs};
use crate::options::Options;
use crate::runs::{some_runs, MOST_ENTRIES};
use crate::show;
use crate::tally::Tally;
use reference::joining::{join, part};
use reference::rng::Rng;

/// `out` and `rest` may be a little longer than they must be.
const MORE: usize = 8;

pub fn compare(options: &Options, tally: &mut Tally) -> Result<(), String> {
    let mut rng = Rng::new(options.seed);
    let mut memory = Memory::new(options.exact);
    for number in 0..options.calls {
        let [first, second] = some_runs(&mut rng);
        memory
            .compare_join(&mut rng, [&first, &second], tally)
            .and_then(|()| memory.compare_part(&mut rng, [&first, &second], tally))
            .map_err(|difference| {
                let [first, second] = [&first, &second].map(|run| show::entries(run.iter()));
                format!("call {number}: {difference}\nfirst run {first}\nsecond run {second}")
            })?;
    }
    Ok(())
}

/// What is to be found after a call.
struct Wanted {
    got: JoinGot,
    /// What stands at the beginning of `out` and of `rest`.
    laid: Vec<u64>,
    handed: Vec<u64>,
}

const REFUSED: Wanted = Wanted {
    got: JoinGot {
        done: false,
        many: 0,
        beside: false,
    },
    laid: Vec::new(),
    handed: Vec::new(),
};

fn done(many: usize) -> JoinGot {
    JoinGot {
        done: true,
        many,
        beside: false,
    }
}

/// What is lent, and any words that stand in it before a call.
struct Memory {
    lent: Runs,
    before: Vec<u64>,
}

impl Memory {
    fn new(exact: bool) -> Memory {
        let mut rng = Rng::new(0);
        let lent = || Lent::new(exact);
        Memory {
            lent: Runs {
                first: lent(),
                second: lent(),
                out: lent(),
                rest: lent(),
            },
            before: (0..2 * MOST_ENTRIES + MORE).map(|_| rng.word()).collect(),
        }
    }

    fn compare_join(
        &mut self,
        rng: &mut Rng,
        runs: [&[u64]; 2],
        tally: &mut Tally,
    ) -> Result<(), String> {
        let joined = join(runs[0], runs[1]);
        let needed = runs[0].len() + runs[1].len();
        let handed = joined.rest.len();
        let (out, rest) = (some_room(rng, needed), some_room(rng, handed));
        let wanted = if out < needed {
            REFUSED
        } else {
            Wanted {
                got: done(handed),
                laid: joined.laid,
                handed: joined.rest[..if handed <= rest { handed } else { 0 }].to_vec(),
            }
        };
        tally.add_join("joins", wanted.got.done, block(runs, out));
        self.load(runs, out, rest);
        let got = joins::join(&mut self.lent);
        self.check(runs, got, &wanted)
            .map_err(|difference| format!("join, out {out}, rest {rest}: {difference}"))
    }

    fn compare_part(
        &mut self,
        rng: &mut Rng,
        runs: [&[u64]; 2],
        tally: &mut Tally,
    ) -> Result<(), String> {
        let out = some_part(rng, runs);
        let wanted = if out > runs[0].len() + runs[1].len() {
            REFUSED
        } else {
            let found = part(runs[0], runs[1], out);
            Wanted {
                got: done(found.first),
                laid: found.laid,
                handed: Vec::new(),
            }
        };
        tally.add_join("parts", wanted.got.done, block(runs, out));
        self.load(runs, out, 0);
        let got = joins::part(&mut self.lent);
        self.check(runs, got, &wanted)
            .map_err(|difference| format!("part, out {out}: {difference}"))
    }

    fn load(&mut self, runs: [&[u64]; 2], out: usize, rest: usize) {
        self.lent.first.load(runs[0]);
        self.lent.second.load(runs[1]);
        self.lent.out.load(&self.before[..out]);
        self.lent.rest.load(&self.before[..rest]);
    }

    fn check(&self, runs: [&[u64]; 2], got: JoinGot, wanted: &Wanted) -> Result<(), String> {
        if got != wanted.got {
            return Err(format!("expected {:x?}, got {got:x?}", wanted.got));
        }
        let Runs {
            first,
            second,
            out,
            rest,
        } = &self.lent;
        check_words("first run", first, runs[0], &[])?;
        check_words("second run", second, runs[1], &[])?;
        check_words("out", out, &wanted.laid, &self.before)?;
        check_words("rest", rest, &wanted.handed, &self.before)
    }
}

/// The words at the beginning, behind them what was there before, and nothing beside.
fn check_words(name: &str, lent: &Lent, words: &[u64], before: &[u64]) -> Result<(), String> {
    let found = lent.contents();
    let wanted = |at: usize| words.get(at).unwrap_or_else(|| &before[at]);
    if let Some(at) = (0..found.len()).find(|&at| found[at] != *wanted(at)) {
        let (wanted, got) = (wanted(at), found[at]);
        return Err(format!(
            "word {at} of {name}: expected {wanted:#x}, got {got:#x}"
        ));
    }
    match lent.written_beside() {
        Some(where_to) => Err(format!("written {where_to} {name}")),
        None => Ok(()),
    }
}

/// Words of `out` or `rest` where so many are needed.
fn some_room(rng: &mut Rng, needed: usize) -> usize {
    match rng.below(10) {
        0 => 0,
        1 => needed.saturating_sub(1),
        2..=5 => needed,
        _ => needed + 1 + rng.size(MORE),
    }
}

/// Words of a part's `out`: near the end of one run or of both, or anything up to it.
fn some_part(rng: &mut Rng, runs: [&[u64]; 2]) -> usize {
    let lengths = runs.map(<[u64]>::len);
    let all = lengths[0] + lengths[1];
    match rng.below(10) {
        0 => 0,
        1 => all + 1 + rng.size(MORE),
        2 => all,
        3..=5 => (lengths[rng.size(2)] + rng.size(3)).saturating_sub(1),
        _ => rng.size(all + 1),
    }
}

/// The number of the run of which every entry goes before the other's head and has
/// room in `out`.
fn block([first, second]: [&[u64]; 2], out: usize) -> Option<usize> {
    let (first_head, second_head) = (first.first()?, second.first()?);
    let before = [
        first.iter().all(|entry| entry <= second_head) && first.len() <= out,
        second.iter().all(|entry| entry < first_head) && second.len() <= out,
    ];
    before.iter().position(|&whole| whole)
}
