//! Orders as lines of capital hexadecimal.

use crate::answers::{settle, Result};
use crate::c;
use crate::entries::Entry;

/// The bytes of the longest frame, without its line end.
pub const FRAME_BYTES: usize = 18;

/// The bytes of an answer line, with its line end.
pub const ANSWER_LINE_BYTES: usize = 27;

/// What a frame asks for.
#[derive(Clone, Copy, Debug, PartialEq, Eq)]
pub enum Order {
    /// A setup of so many links, which may be refused.
    SetUp(u8),
    Insert(Entry),
    Take,
    Look,
    Held,
    Audit,
}

impl Order {
    /// Reads a line without its line end.
    pub fn read(line: &[u8]) -> Result<Order> {
        let (mut kind, mut value) = (0, 0);
        // SAFETY: pointer and length are a slice's, and the numbers are our own.
        settle(unsafe {
            c::gorgalhut_read_frame(line.as_ptr(), line.len(), &raw mut kind, &raw mut value)
        })?;
        Ok(match kind {
            0 => Order::SetUp(value as u8),
            1 => Order::Insert(Entry::from_word(value)),
            2 => Order::Take,
            3 => Order::Look,
            4 => Order::Held,
            _ => Order::Audit,
        })
    }

    /// Writes its digits, without line end, at the start of a buffer and changes no byte behind them. Gives the part
    /// that was written; refused, and nothing written, if the buffer is too short.
    pub fn write(self, out: &mut [u8]) -> Result<&mut [u8]> {
        let (kind, value) = match self {
            Order::SetUp(links) => (0, u64::from(links)),
            Order::Insert(entry) => (1, entry.word()),
            Order::Take => (2, 0),
            Order::Look => (3, 0),
            Order::Held => (4, 0),
            Order::Audit => (5, 0),
        };
        let mut written = 0;
        // SAFETY: pointer and length are a slice's, and the number is our own.
        settle(unsafe {
            c::gorgalhut_write_frame(kind, value, out.as_mut_ptr(), out.len(), &raw mut written)
        })?;
        Ok(&mut out[..written])
    }
}

/// Writes the line that answers a call, with its line end, at the start of a buffer. Refused, and nothing written, for
/// steps of more than 32 bits, which no call has, or too short a buffer.
pub fn answer_line(answer: u8, word: u64, steps: u64, out: &mut [u8]) -> Result<&mut [u8]> {
    let mut written = 0;
    // SAFETY: pointer and length are a slice's, and the number is our own.
    settle(unsafe {
        let (to, bytes) = (out.as_mut_ptr(), out.len());
        c::gorgalhut_answer_line(answer, word, steps, to, bytes, &raw mut written)
    })?;
    Ok(&mut out[..written])
}
