//! Frames: reading lines, running their orders and writing answer lines.

use crate::machine::{Machine, Outcome};
use crate::queue::{Buffer, Queue};
use std::io::{self, BufRead, Write};

/// "A read frame is an order with its own data".
#[derive(Clone, Copy, Debug, PartialEq, Eq)]
pub enum Order {
    Setup(u8),
    Insert(u64),
    Take,
    Look,
    Held,
    Audit,
}

/// "program [..]: not a frame".
pub const NOT_A_FRAME: u8 = 10;

/// "capital hexadecimal": the value of one digit.
fn digit(byte: u8) -> Option<u8> {
    match byte {
        b'0'..=b'9' => Some(byte - b'0'),
        b'A'..=b'F' => Some(byte - b'A' + 10),
        _ => None,
    }
}

/// The bytes two digits each stand for; none if a digit is bad or left alone.
pub fn bytes_of(line: &[u8]) -> Option<Vec<u8>> {
    if !line.len().is_multiple_of(2) {
        return None;
    }
    line.chunks(2)
        .map(|pair| Some(16 * digit(pair[0])? + digit(pair[1])?))
        .collect()
}

/// "00 and one byte: setup. 01 and eight bytes, high byte first: insert. 02 take,
/// 03 look, 04 held, 05 audit, alone. [..] On reading, everything else, the empty
/// line too, is 10." The line comes without its 0A.
pub fn read_order(line: &[u8]) -> Option<Order> {
    match bytes_of(line)?.as_slice() {
        [0, links] => Some(Order::Setup(*links)),
        [1, entry @ ..] => Some(Order::Insert(u64::from_be_bytes(entry.try_into().ok()?))),
        [2] => Some(Order::Take),
        [3] => Some(Order::Look),
        [4] => Some(Order::Held),
        [5] => Some(Order::Audit),
        _ => None,
    }
}

/// "Writing an order gives its digits without 0A".
pub fn write_order(order: Order) -> String {
    match order {
        Order::Setup(links) => format!("00{links:02X}"),
        Order::Insert(entry) => format!("01{entry:016X}"),
        Order::Take => "02".to_string(),
        Order::Look => "03".to_string(),
        Order::Held => "04".to_string(),
        Order::Audit => "05".to_string(),
    }
}

/// Makes the call an order asks for.
pub fn run_order(machine: &mut Machine, order: Order) -> Outcome {
    match order {
        Order::Setup(links) => machine.setup(usize::from(links)),
        Order::Insert(entry) => machine.insert(entry),
        Order::Take => machine.take(),
        Order::Look => machine.look(),
        Order::Held => machine.held(),
        Order::Audit => machine.audit(),
    }
}

/// Runs one line without its 0A.
pub fn run_line(machine: &mut Machine, line: &[u8]) -> Outcome {
    match read_order(line) {
        Some(order) => run_order(machine, order),
        None => Outcome::refused(NOT_A_FRAME),
    }
}

/// "Each output line in capital hexadecimal: answer, 2 digits (10 is 0A); word,
/// 16; steps, 8."
pub fn answer_line(outcome: &Outcome) -> String {
    let Outcome {
        answer,
        word,
        steps,
        ..
    } = outcome;
    format!("{answer:02X}{word:016X}{steps:08X}")
}

/// Counters and the count of every buffer, by buffer number.
pub fn counts_line(queue: Option<&Queue>) -> String {
    let Some(queue) = queue else {
        return "  -".to_string();
    };
    let mut line = format!(
        "  L={} c={} I={}",
        queue.links,
        with_commas(&queue.c),
        queue.insertion.len()
    );
    for (index, buffers) in queue.buffers.iter().enumerate() {
        let counts: Vec<usize> = buffers.iter().map(Buffer::len).collect();
        line += &format!(" {}:{}", index + 1, with_commas(&counts));
    }
    line
}

fn with_commas(numbers: &[usize]) -> String {
    let texts: Vec<String> = numbers.iter().map(usize::to_string).collect();
    texts.join(",")
}

/// "One frame a line, [..] line end 0A; a last line without it counts if it has
/// at least one byte."
pub fn run_frames(
    machine: &mut Machine,
    mut input: impl BufRead,
    mut output: impl Write,
    counts: bool,
) -> io::Result<()> {
    let mut line = Vec::new();
    while input.read_until(b'\n', &mut line)? > 0 {
        let frame = line.strip_suffix(b"\n").unwrap_or(&line);
        let outcome = run_line(machine, frame);
        writeln!(output, "{}", answer_line(&outcome))?;
        if counts {
            writeln!(output, "{}", counts_line(machine.queue.as_ref()))?;
        }
        line.clear();
    }
    output.flush()
}
