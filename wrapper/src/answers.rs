//! The numbers that come back.

use core::error::Error;
use core::fmt::{self, Display, Formatter};

/// Why nothing was done. A refusal changes nothing that was lent. Later versions may have more of them.
#[derive(Clone, Copy, Debug, PartialEq, Eq, Hash)]
#[non_exhaustive]
pub enum Refusal {
    /// 1: links not 1 to 4.
    NoSuchLinks = 1,
    /// 2: the array is shorter than 296 words, or than its links need.
    ArrayShort = 2,
    /// 3: the work area is shorter than its links need.
    WorkShort = 3,
    /// 4: the array's book breaks a book rule: no setup yet, or damaged.
    BookBroken = 4,
    /// 5: as many entries are held as its links can hold.
    Full = 5,
    /// 6: no entry is held.
    NoneHeld = 6,
    /// 7: the door byte of an entry or a pair is above 2.
    DoorAbove = 7,
    /// 9: the book is sound, but entries are out of order.
    OrderBroken = 9,
    /// 10: not a frame, not an order that can be written, or too short a buffer; of a report, slices of different
    /// lengths.
    NotAFrame = 10,
    /// 15: more than 4,096 pairs.
    TooManyPairs = 15,
}

/// What a call comes to.
pub type Result<T> = core::result::Result<T, Refusal>;

const ALL: [Refusal; 10] = [
    Refusal::NoSuchLinks,
    Refusal::ArrayShort,
    Refusal::WorkShort,
    Refusal::BookBroken,
    Refusal::Full,
    Refusal::NoneHeld,
    Refusal::DoorAbove,
    Refusal::OrderBroken,
    Refusal::NotAFrame,
    Refusal::TooManyPairs,
];

impl Refusal {
    /// The number on paper.
    pub fn number(self) -> u8 {
        self as u8
    }

    /// The refusal of a number; none for 0, which is done, and for numbers that no refusal has.
    pub fn of_number(number: u8) -> Option<Refusal> {
        ALL.into_iter().find(|refusal| refusal.number() == number)
    }
}

/// Turns an answer's number into a result.
pub(crate) fn settle(number: u8) -> Result<()> {
    match number {
        0 => Ok(()),
        _ => Err(Refusal::of_number(number).expect("the library answers 0 or a refusal's number")),
    }
}

/// The number of a result: 0, or its refusal's.
pub(crate) fn number_of<T>(result: &Result<T>) -> u8 {
    match result {
        Ok(_) => 0,
        Err(refusal) => refusal.number(),
    }
}

impl Display for Refusal {
    fn fmt(&self, out: &mut Formatter) -> fmt::Result {
        out.write_str(match self {
            Refusal::NoSuchLinks => "links are not 1 to 4",
            Refusal::ArrayShort => "the array is too short",
            Refusal::WorkShort => "the work area is too short",
            Refusal::BookBroken => "the book breaks a book rule",
            Refusal::Full => "the queue is full",
            Refusal::NoneHeld => "no entry is held",
            Refusal::DoorAbove => "the door is above 2",
            Refusal::OrderBroken => "entries are out of order",
            Refusal::NotAFrame => "not a frame, or slices of different lengths",
            Refusal::TooManyPairs => "more than 4,096 pairs",
        })
    }
}

impl Error for Refusal {}
