//! Seeded random sessions of frames. A machine of our own runs along, so that
//! the session knows when the queue is full, empty or not set up.

use crate::frames::{run_line, run_order, write_order, Order};
use crate::links::{array_words, most_held, MOST_LINKS};
use crate::machine::{Machine, Outcome};
use crate::options::Options;
use crate::queue::Queue;
use crate::rng::Rng;

/// Where a phase leads the queue.
#[derive(Clone, Copy, Debug, PartialEq, Eq)]
enum Aim {
    Full,
    Empty,
    Level,
}

/// Which entries a phase inserts.
#[derive(Clone, Copy, Debug, PartialEq, Eq)]
enum Entries {
    /// Nearly all equal to another.
    Few,
    /// Some equal to another.
    Many,
    /// Due ticks that rise, as clocks do.
    Rising,
    /// Due ticks that fall, so that I holds the smallest.
    Falling,
    /// Any due tick and command.
    Any,
}

const PLAIN_ENTRIES: [Entries; 4] = [
    Entries::Few,
    Entries::Few,
    Entries::Rising,
    Entries::Falling,
];

const ALL_ENTRIES: [Entries; 6] = [
    Entries::Few,
    Entries::Many,
    Entries::Many,
    Entries::Rising,
    Entries::Falling,
    Entries::Any,
];

/// A session on its way, with the machine that runs along.
pub struct Session {
    rng: Rng,
    machine: Machine,
    plain: bool,
    links: Option<usize>,
    /// The longest phase that leaves room for others.
    longest: usize,
    aim: Aim,
    entries: Entries,
    /// Lines left in this phase.
    left: usize,
    /// Due tick that rises and falls.
    clock: u32,
}

/// The whole session as bytes, by seed, number of lines and link number.
pub fn session(options: &Options) -> Vec<u8> {
    let mut session = Session::new(options);
    let mut bytes = Vec::new();
    for number in 1..=options.lines {
        let line = session.next_line();
        let outcome = run_line(&mut session.machine, &line);
        session.observe(&outcome);
        bytes.extend_from_slice(&line);
        // An empty last line without its end would be no line.
        let endless = !options.plain && !line.is_empty() && session.rng.one_in(3);
        if number < options.lines || !endless {
            bytes.push(b'\n');
        }
    }
    bytes
}

impl Session {
    pub fn new(options: &Options) -> Session {
        Session {
            rng: Rng::new(options.seed),
            machine: Machine::zeros(options.array, options.work),
            plain: options.plain,
            links: options.links,
            longest: options.lines / 3 + 20,
            aim: Aim::Full,
            entries: Entries::Few,
            left: 0,
            clock: 1000,
        }
    }

    /// The next order that is a frame, and what the machine answered.
    pub fn step(&mut self) -> (Order, Outcome) {
        let order = self.next_order();
        let outcome = run_order(&mut self.machine, order);
        self.observe(&outcome);
        (order, outcome)
    }

    /// The queue at this moment; none before the first setup.
    pub fn queue(&self) -> Option<&Queue> {
        self.machine.queue.as_ref()
    }

    fn next_line(&mut self) -> Vec<u8> {
        if !self.plain && self.rng.one_in(30) {
            return self.damaged_line();
        }
        let order = self.next_order();
        write_order(order).into_bytes()
    }

    /// A phase ends when its lines are used up, or soon after its aim is reached.
    fn observe(&mut self, outcome: &Outcome) {
        self.left = self.left.saturating_sub(1);
        let reached = match self.aim {
            Aim::Full => outcome.answer == 5,
            Aim::Empty => outcome.answer == 6,
            Aim::Level => false,
        };
        if reached && self.rng.one_in(2) {
            self.left = 0;
        }
    }

    fn next_order(&mut self) -> Order {
        let Some(queue) = &self.machine.queue else {
            return self.order_before_setup();
        };
        let most = most_held(queue.links);
        if self.left == 0 {
            self.new_phase(most);
            if self.rng.one_in(if self.plain { 40 } else { 12 }) {
                return self.setup();
            }
        }
        if !self.plain && self.rng.one_in(60) {
            return self.refused_order();
        }
        match self.rng.below(100) {
            0..=3 => Order::Look,
            4..=5 => Order::Held,
            6..=7 => Order::Audit,
            _ => self.towards_aim(),
        }
    }

    /// Before the first setup every other order answers 4, so a few will do.
    fn order_before_setup(&mut self) -> Order {
        if self.plain || self.rng.one_in(2) {
            return self.setup();
        }
        match self.rng.below(6) {
            0 => self.refused_order(),
            1 => Order::Insert(self.entry()),
            2 => Order::Take,
            3 => Order::Look,
            4 => Order::Held,
            _ => Order::Audit,
        }
    }

    fn new_phase(&mut self, most: usize) {
        self.aim = match self.rng.below(20) {
            0..=6 => Aim::Full,
            7..=13 => Aim::Empty,
            _ => Aim::Level,
        };
        // Half of the phases are long enough to reach the aim.
        let longest = self.longest.min(2 * most + 40);
        self.left = if self.rng.one_in(2) {
            longest
        } else {
            1 + self.rng.size(longest)
        };
        self.new_entries();
    }

    fn new_entries(&mut self) {
        let kinds: &[Entries] = if self.plain {
            &PLAIN_ENTRIES
        } else {
            &ALL_ENTRIES
        };
        self.entries = kinds[self.rng.size(kinds.len())];
        // Now and then the clock jumps, to the ends of its range as well.
        self.clock = match self.rng.below(8) {
            0 => 0,
            1 => u32::MAX,
            2 => self.rng.word() as u32,
            _ => self.clock,
        };
    }

    /// A setup that the array allows; after it, the queue fills first.
    fn setup(&mut self) -> Order {
        let fitting: Vec<usize> = (1..=MOST_LINKS)
            .filter(|&l| array_words(l) <= self.machine.array_words)
            .collect();
        let links = match self.links {
            Some(links) => links,
            None if fitting.is_empty() => 1,
            None => fitting[self.rng.size(fitting.len())],
        };
        self.aim = Aim::Full;
        self.left = 1 + self.longest.min(2 * most_held(links) + 40);
        self.new_entries();
        Order::Setup(links as u8)
    }

    /// Nine in ten calls lead to the aim.
    fn towards_aim(&mut self) -> Order {
        let inserts_in_ten = match self.aim {
            Aim::Full => 9,
            Aim::Empty => 1,
            Aim::Level => 5,
        };
        if self.rng.below(10) < inserts_in_ten {
            Order::Insert(self.entry())
        } else {
            Order::Take
        }
    }

    fn entry(&mut self) -> u64 {
        let (tick, command) = match self.entries {
            Entries::Few => (self.rng.below(4) as u32, self.rng.below(2)),
            Entries::Many => (self.rng.below(100) as u32, self.rng.below(3)),
            Entries::Rising => (self.moving_clock(1), self.rng.below(2)),
            Entries::Falling => (self.moving_clock(u32::MAX), self.rng.below(2)),
            Entries::Any => (self.rng.word() as u32, self.rng.below(1 << 24)),
        };
        let door = self.rng.below(3);
        (u64::from(tick) << 32) | (door << 24) | command
    }

    /// The clock moves one time in eight, so that entries may be equal.
    fn moving_clock(&mut self, by: u32) -> u32 {
        if self.rng.one_in(8) {
            self.clock = self.clock.wrapping_add(by);
        }
        self.clock
    }

    /// A frame that is read but refused: 7, 1 or 2.
    fn refused_order(&mut self) -> Order {
        let too_large: Vec<usize> = (1..=MOST_LINKS)
            .filter(|&l| array_words(l) > self.machine.array_words)
            .collect();
        match self.rng.below(6) {
            0 => Order::Setup(0),
            1 => Order::Setup(5 + self.rng.below(251) as u8),
            2 if !too_large.is_empty() => {
                Order::Setup(too_large[self.rng.size(too_large.len())] as u8)
            }
            _ => {
                let door = 3 + self.rng.below(253);
                Order::Insert(self.entry() & !(0xFF << 24) | (door << 24))
            }
        }
    }

    /// Any valid order, for damaging.
    fn some_order(&mut self) -> Order {
        match self.rng.below(6) {
            0 => Order::Setup(self.rng.below(5) as u8),
            1 => Order::Take,
            2 => Order::Look,
            3 => Order::Held,
            _ => Order::Insert(self.entry()),
        }
    }

    fn damaged_line(&mut self) -> Vec<u8> {
        let order = self.some_order();
        let mut line = write_order(order).into_bytes();
        let at = self.rng.size(line.len());
        match self.rng.below(20) {
            // Small letters: the last digit is made a letter first.
            0..=2 => {
                line = write_order(Order::Insert(self.rng.word() | 10))
                    .to_lowercase()
                    .into()
            }
            // An odd number of digits.
            3..=5 => drop(line.remove(at)),
            // A digit that is none, beside the good ones in the code table or far off.
            6..=8 => line[at] = b"/:@Gg`- ~\0\x80\xFF"[self.rng.size(12)],
            // Spaces or carriage returns too many.
            9 => line.insert(at, b' '),
            10 => line.push(b' '),
            11 => line.push(b'\r'),
            // Good digits, wrong length.
            12 => line.extend_from_slice(b"00"),
            13 => line.truncate(line.len() - 2),
            // An order number that is none.
            14 => line = format!("{:02X}", 6 + self.rng.below(250)).into_bytes(),
            15..=16 => line.clear(),
            17..=18 => line = self.random_bytes(40),
            _ => line = self.long_line(),
        }
        line
    }

    /// Any bytes but the line end.
    fn random_bytes(&mut self, limit: usize) -> Vec<u8> {
        let length = 1 + self.rng.size(limit);
        let bytes = (0..length).map(|_| self.rng.word() as u8);
        bytes.filter(|&byte| byte != b'\n').collect()
    }

    /// Many thousand bytes: good digits, or anything.
    fn long_line(&mut self) -> Vec<u8> {
        let length = 2000 + self.rng.size(40_000);
        match self.rng.below(3) {
            0 => vec![b'0'; length],
            1 => b"0100000003020000".repeat(length / 16),
            _ => self.random_bytes(length),
        }
    }
}
