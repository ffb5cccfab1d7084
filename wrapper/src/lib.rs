//! The proved queue of the start gate's box, over memory that the caller lends.
//!
//! [`Queue`] borrows an array and a work area, so neither can overlap the other or be used by anybody else while the
//! queue stands. [`Report`] tells how punctual the doors were. Every refusal is a [`Refusal`] with the number that the documents give it, and changes nothing.
//! Nothing here needs `std` or an allocator.
//!
//! ```
//! use gorgalhut::{Command, Door, Entry, Links, Queue};
//!
//! let mut array = [0; Links::One.array_words()];
//! let mut work = [0; Links::One.work_words()];
//! let mut queue = Queue::set_up(&mut array, &mut work, Links::One)?;
//! let horn = Entry::new(30_000, Door::Both, Command::of(7));
//! let gate = Entry::new(20_000, Door::Left, Command::of(1));
//! queue.insert(horn)?;
//! queue.insert(gate)?;
//! assert_eq!(queue.take()?.entry, gate);
//! assert_eq!(queue.held()?, 1);
//! # Ok::<(), gorgalhut::Refusal>(())
//! ```

#![no_std]

mod answers;
#[doc(hidden)]
pub mod c;
mod entries;
mod frames;
mod lateness;
mod queue;
mod tally;

pub use answers::{Refusal, Result};
pub use entries::{Command, Door, Entry};
pub use frames::{answer_line, Order, ANSWER_LINE_BYTES, FRAME_BYTES};
pub use lateness::{Lateness, Report, MOST_PAIRS};
pub use queue::{book_sound, Found, Inserted, Links, Queue};
pub use tally::Tally;
