//! The joining and the parting of two runs, from a library of their own.

use crate::lent::Lent;

#[cfg(feature = "joins")]
mod c;

/// What is lent for a join or a part; a part gets no rest.
pub struct Runs {
    pub first: Lent,
    pub second: Lent,
    pub out: Lent,
    pub rest: Lent,
}

/// What a join or a part brought back.
#[derive(Clone, Copy, Debug, PartialEq, Eq)]
pub struct JoinGot {
    pub done: bool,
    /// Entries handed back by a join, entries of the first run in a part.
    pub many: usize,
    /// Whether something was written beside this number.
    pub beside: bool,
}

#[cfg(feature = "joins")]
pub use with_joins::{join, part};
#[cfg(not(feature = "joins"))]
pub use without_joins::{join, part};

#[cfg(feature = "joins")]
mod with_joins {
    use super::c::{joins_join, joins_part};
    use super::*;

    const CANARY: usize = 0xC0DE_CAFE_C0DE_CAFE;

    /// Where the number goes: canaries around what must not be left unwritten.
    const UNWRITTEN: [usize; 3] = [CANARY, 0xBAD0_BAD0, CANARY];

    fn got(done: bool, places: [usize; 3]) -> JoinGot {
        let [before, many, behind] = places;
        JoinGot {
            done,
            many,
            beside: [before, behind] != [CANARY; 2],
        }
    }

    pub fn join(runs: &mut Runs) -> JoinGot {
        let mut places = UNWRITTEN;
        // SAFETY: each pointer is of memory that is lent for the call.
        let done = unsafe {
            joins_join(
                runs.first.pointer(),
                runs.first.length(),
                runs.second.pointer(),
                runs.second.length(),
                runs.out.pointer(),
                runs.out.length(),
                runs.rest.pointer(),
                runs.rest.length(),
                places[..].as_mut_ptr().wrapping_add(1),
            )
        };
        got(done, places)
    }

    pub fn part(runs: &mut Runs) -> JoinGot {
        let mut places = UNWRITTEN;
        // SAFETY: each pointer is of memory that is lent for the call.
        let done = unsafe {
            joins_part(
                runs.first.pointer(),
                runs.first.length(),
                runs.second.pointer(),
                runs.second.length(),
                runs.out.pointer(),
                runs.out.length(),
                places[..].as_mut_ptr().wrapping_add(1),
            )
        };
        got(done, places)
    }
}

#[cfg(not(feature = "joins"))]
mod without_joins {
    use super::*;

    pub fn join(_runs: &mut Runs) -> JoinGot {
        unreachable!("built without the feature joins")
    }

    pub fn part(_runs: &mut Runs) -> JoinGot {
        unreachable!("built without the feature joins")
    }
}
