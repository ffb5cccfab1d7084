//! How much was compared.

use reference::array::calls::Call;
use reference::array::generate::Kind;
use reference::limits::{longest_insert, longest_take};
use reference::machine::Outcome;
use std::collections::BTreeMap;
use std::fmt::{self, Display, Formatter};

/// The most steps of a take or look, and of an insert.
#[derive(Default)]
struct Longest {
    take: u64,
    insert: u64,
}

impl Longest {
    fn add(&mut self, call: Call, steps: u64) {
        let most = match call {
            Call::Insert(..) => &mut self.insert,
            _ => &mut self.take,
        };
        *most = steps.max(*most);
    }
}

#[derive(Default)]
pub struct Tally {
    /// For each kind, arrays whose book is refused and sound ones.
    kinds: BTreeMap<Kind, [usize; 2]>,
    /// For each link number in the array, arrays; 0 is a number out of range.
    links: BTreeMap<usize, usize>,
    answers: BTreeMap<(&'static str, u8), usize>,
    sweeps: BTreeMap<usize, usize>,
    packings: usize,
    /// Calls that made merge steps, and all those steps.
    with_steps: usize,
    steps: u64,
    session_calls: usize,
    /// For each link number, on random books and on all.
    longest_random: BTreeMap<usize, Longest>,
    longest: BTreeMap<usize, Longest>,
    lines: usize,
    /// Joins and parts.
    joins: BTreeMap<&'static str, Joins>,
    days: usize,
    /// What days of pairs are there for, and how often each was met.
    met: BTreeMap<&'static str, usize>,
}

#[derive(Default)]
struct Joins {
    done: usize,
    refused: usize,
    /// Of those done, with the whole first or second run in one block.
    blocks: [usize; 2],
}

/// A call's name in the document.
pub fn name(call: Call) -> &'static str {
    match call {
        Call::Setup(_) => "setup",
        Call::Insert(..) => "insert",
        Call::Take => "take",
        Call::Look => "look",
        Call::Held => "held",
        Call::Audit => "audit",
    }
}

impl Tally {
    pub fn add_array(&mut self, kind: Kind, links: Option<usize>, sound: bool) {
        self.kinds.entry(kind).or_default()[usize::from(sound)] += 1;
        *self.links.entry(links.unwrap_or(0)).or_default() += 1;
    }

    pub fn add_call(&mut self, call: Call, outcome: &Outcome) {
        let answer = (name(call), outcome.answer);
        *self.answers.entry(answer).or_default() += 1;
        if let Some(link) = outcome.swept_to {
            *self.sweeps.entry(link).or_default() += 1;
        }
        self.packings += usize::from(outcome.packed);
        self.with_steps += usize::from(outcome.steps > 0);
        self.steps += outcome.steps;
    }

    pub fn add_session_call(&mut self, call: Call, outcome: &Outcome) {
        self.add_call(call, outcome);
        self.session_calls += 1;
    }

    pub fn add_longest(&mut self, links: usize, random: bool, call: Call, steps: u64) {
        self.longest.entry(links).or_default().add(call, steps);
        if random {
            let longest = self.longest_random.entry(links).or_default();
            longest.add(call, steps);
        }
    }

    /// A line read, an order and an answer line written, and a call told to the tally.
    pub fn add_line(&mut self) {
        self.lines += 1;
    }

    /// `block` is the number of the run that is laid as a whole, if one is.
    pub fn add_join(&mut self, name: &'static str, done: bool, block: Option<usize>) {
        let joins = self.joins.entry(name).or_default();
        if !done {
            joins.refused += 1;
            return;
        }
        joins.done += 1;
        block.into_iter().for_each(|run| joins.blocks[run] += 1);
    }

    pub fn add_day(&mut self) {
        self.days += 1;
    }

    /// Something was met so often in a day; with 0 it is to be met by others.
    pub fn add_met(&mut self, what: &'static str, many: usize) {
        *self.met.entry(what).or_default() += many;
    }

    /// What a comparison is there for and did not meet.
    pub fn never_met(&self) -> String {
        let never = self.met.iter().filter(|&(_, &many)| many == 0);
        let names: Vec<&str> = never.map(|(&what, _)| what).collect();
        names.join("; ")
    }

    fn write_longest(&self, out: &mut Formatter) -> fmt::Result {
        for (links, Longest { take, insert }) in &self.longest_random {
            writeln!(
                out,
                "links {links}, random books: take {take}, insert {insert}"
            )?;
        }
        for (&links, Longest { take, insert }) in &self.longest {
            let (take_limit, insert_limit) = (longest_take(links), longest_insert(links));
            writeln!(
                out,
                "links {links}: take {take} of {take_limit}, insert {insert} of {insert_limit}"
            )?;
        }
        Ok(())
    }

    fn write_days(&self, out: &mut Formatter) -> fmt::Result {
        writeln!(out, "days {}", self.days)?;
        let mut met = self.met.iter();
        met.try_for_each(|(what, many)| writeln!(out, "  {what}: {many}"))
    }

    fn write_joins(&self, out: &mut Formatter) -> fmt::Result {
        let mut joins = self.joins.iter();
        joins.try_for_each(|(name, joins)| writeln!(out, "{name}: {joins}"))
    }
}

impl Display for Joins {
    fn fmt(&self, out: &mut Formatter) -> fmt::Result {
        let (done, refused, [first, second]) = (self.done, self.refused, self.blocks);
        write!(
            out,
            "{done} done, of them with the whole first run in one block {first}, with the second {second}; {refused} refused"
        )
    }
}

impl Display for Tally {
    fn fmt(&self, out: &mut Formatter) -> fmt::Result {
        if self.lines > 0 {
            return writeln!(
                out,
                "lines, orders, answers and tally calls {} each",
                self.lines
            );
        }
        if !self.joins.is_empty() {
            return self.write_joins(out);
        }
        if !self.met.is_empty() {
            return self.write_days(out);
        }
        let arrays: usize = self.links.values().sum();
        writeln!(out, "arrays {arrays}")?;
        for (kind, [refused, sound]) in &self.kinds {
            writeln!(out, "  {kind:?}: {sound} sound, {refused} not")?;
        }
        for (links, many) in &self.links {
            writeln!(out, "  link number {links}: {many}")?;
        }
        let calls: usize = self.answers.values().sum();
        if calls > 0 {
            let in_sessions = self.session_calls;
            writeln!(out, "calls {calls}, of them in sessions {in_sessions}")?;
            let (with_steps, steps) = (self.with_steps, self.steps);
            writeln!(out, "  with merge steps: {with_steps}, steps {steps}")?;
        }
        for ((call, answer), many) in &self.answers {
            writeln!(out, "  {call} answered {answer}: {many}")?;
        }
        for (link, many) in &self.sweeps {
            writeln!(out, "  swept to {link}: {many}")?;
        }
        if self.packings > 0 {
            writeln!(out, "  packed: {}", self.packings)?;
        }
        self.write_longest(out)
    }
}
