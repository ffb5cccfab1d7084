//! A heat at the start gate: its orders go into the queue as they are thought of and come out as they are due.
//! Built and run as README.md says; examples/heat.c does the same from C and prints the same text.

use gorgalhut::{Command, Door, Entry, Links, Order, Queue, Refusal, Tally, FRAME_BYTES};

const HEAT: [(u32, Door, u32); 10] = [
    (30_000, Door::Left, 3),
    (30_000, Door::Right, 3),
    (30_000, Door::Both, 2),
    (10_000, Door::Both, 1),
    (20_000, Door::Both, 1),
    (0, Door::Both, 5),
    (29_500, Door::Both, 6),
    (45_000, Door::Right, 4),
    (45_000, Door::Left, 4),
    (60_000, Door::Both, 5),
];

/// An order for a door that there is not; only a word from elsewhere can have one.
const DOOR_3: Entry = Entry::from_word(29_999 << 32 | 3 << 24 | 3);

const COMMANDS: [&str; 7] = ["", "lamp", "horn", "open", "shut", "beam off", "beam on"];

fn door_name(entry: Entry) -> &'static str {
    match entry.door() {
        Some(Door::Both) => "both",
        Some(Door::Left) => "left",
        Some(Door::Right) => "right",
        None => "none",
    }
}

fn main() -> Result<(), Refusal> {
    // One link is enough for a heat: 16 orders.
    let mut array = [0; Links::One.array_words()];
    let mut work = [0; Links::One.work_words()];
    let mut queue = Queue::set_up(&mut array, &mut work, Links::One)?;
    let mut tally = Tally::new();
    let heat = HEAT.map(|(tick, door, command)| Entry::new(tick, door, Command::of(command)));
    for entry in heat.into_iter().chain([DOOR_3]) {
        let result = queue.insert(entry);
        tally.add_insert(&result);
        if let Err(refusal) = result {
            let (door, number) = (entry.door_byte(), refusal.number());
            println!("order for door {door} refused with {number}");
        }
    }
    println!("{} orders held", queue.held()?);
    loop {
        let result = queue.take();
        tally.add_take(&result);
        let entry = match result {
            Ok(found) => found.entry,
            Err(refusal) => {
                println!("take refused with {}", refusal.number());
                break;
            }
        };
        let mut frame = [0; FRAME_BYTES];
        let digits = Order::Insert(entry).write(&mut frame)?;
        let line = String::from_utf8_lossy(digits);
        let (seconds, rest) = (entry.tick() / 10_000, entry.tick() % 10_000);
        let command = COMMANDS[entry.command().number() as usize];
        println!(
            "{line}  {seconds}.{rest:04} s  {:5}  {command}",
            door_name(entry)
        );
    }
    let (inserts, takes) = (tally.inserts, tally.takes);
    let (steps, packings) = (tally.steps, tally.packings);
    println!("inserts {inserts}, takes {takes}, merge steps {steps}, packings {packings}");
    Ok(())
}
