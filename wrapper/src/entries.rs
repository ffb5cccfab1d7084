//! An entry: due tick, door and command in one word.

/// The door that an order is for.
#[derive(Clone, Copy, Debug, PartialEq, Eq, PartialOrd, Ord, Hash)]
pub enum Door {
    Both = 0,
    Left = 1,
    Right = 2,
}

/// A command number of 24 bits.
#[derive(Clone, Copy, Debug, PartialEq, Eq, PartialOrd, Ord, Hash)]
pub struct Command(u32);

impl Command {
    /// The largest command number.
    pub const MOST: u32 = 0xFF_FFFF;

    /// None if the number has more than 24 bits.
    pub const fn new(number: u32) -> Option<Command> {
        if number <= Command::MOST {
            Some(Command(number))
        } else {
            None
        }
    }

    /// For a number that is known to have 24 bits; panics if it has more.
    pub const fn of(number: u32) -> Command {
        match Command::new(number) {
            Some(command) => command,
            None => panic!("a command number has at most 24 bits"),
        }
    }

    pub const fn number(self) -> u32 {
        self.0
    }
}

/// One order to come. Entries compare as they come out: by due tick, then door, then command.
#[derive(Clone, Copy, Debug, PartialEq, Eq, PartialOrd, Ord, Hash)]
pub struct Entry(u64);

impl Entry {
    /// The tick counts 0.1 ms.
    pub const fn new(tick: u32, door: Door, command: Command) -> Entry {
        Entry((tick as u64) << 32 | (door as u64) << 24 | command.0 as u64)
    }

    /// Any word is an entry; one whose door byte is above 2 is refused by insert.
    pub const fn from_word(word: u64) -> Entry {
        Entry(word)
    }

    pub const fn word(self) -> u64 {
        self.0
    }

    /// When it is due, in 0.1 ms.
    pub const fn tick(self) -> u32 {
        (self.0 >> 32) as u32
    }

    /// None for a door byte above 2, which only a frame or a damaged array can bring.
    pub const fn door(self) -> Option<Door> {
        match self.door_byte() {
            0 => Some(Door::Both),
            1 => Some(Door::Left),
            2 => Some(Door::Right),
            _ => None,
        }
    }

    pub const fn door_byte(self) -> u8 {
        (self.0 >> 24) as u8
    }

    pub const fn command(self) -> Command {
        Command(self.0 as u32 & Command::MOST)
    }
}
