//! Arrays and queues in a few lines, for the report of a difference.

use crate::days::Day;
use reference::array::{buffer, decode, stretches, Stretch};
use reference::queue::Queue;

/// A buffer's name: I, or link and number within it, where 0 is A and 1 is B.
fn name(stretch: &Stretch) -> String {
    match stretch.place {
        None => "I".to_string(),
        Some(place) => format!("{}.{}", place.link, place.buffer),
    }
}

/// The first entries of a buffer or a run.
pub fn entries<'a>(list: impl ExactSizeIterator<Item = &'a u64>) -> String {
    let more = if list.len() > 24 { " .." } else { "" };
    let shown: Vec<String> = list.take(24).map(|entry| format!("{entry:x}")).collect();
    format!("[{}{more}]", shown.join(" "))
}

/// The counts of what is lent for a report of lateness, and the first pairs.
pub fn day(day: &Day) -> String {
    let Day {
        due,
        acting,
        doors,
        report,
    } = day;
    let counts = [due.len(), acting.len(), doors.len(), *report];
    let ticks = due.iter().zip(acting).zip(doors);
    let shown: Vec<String> = ticks
        .take(24)
        .map(|((due, acting), door)| format!("{due:x} {acting:x} {door:x}"))
        .collect();
    format!(
        "due, acting, doors and report {counts:?}, pairs [{}]",
        shown.join(", ")
    )
}

/// Link number, counters and every buffer that has entries.
pub fn queue(queue: &Queue) -> String {
    let mut text = format!("L={} c={:?}", queue.links, queue.c);
    for (number, stretch) in stretches(queue.links).iter().enumerate() {
        let held = buffer(queue, number);
        if !held.is_empty() {
            let shown = entries(held.iter());
            text += &format!("\n  {} {} {shown}", name(stretch), held.len());
        }
    }
    text
}

/// The same as an array says it, with start places and marks.
pub fn book(words: &[u64]) -> String {
    let found = decode(words);
    let mut text = format!("{} words, L={} c={:?}", words.len(), found.links, found.c);
    let all = stretches(found.c.len());
    for (decoded, stretch) in found.buffers.iter().zip(all) {
        let said = decoded.word;
        if said.count == 0 && !said.mark && said.start <= stretch.capacity {
            continue;
        }
        let shown = decoded
            .entries
            .map_or("outside the array".to_string(), |list| entries(list.iter()));
        let mark = if said.mark { " marked" } else { "" };
        let (count, start) = (said.count, said.start);
        text += &format!("\n  {} {count} from {start}{mark} {shown}", name(stretch));
    }
    text
}
