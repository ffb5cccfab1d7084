//! The document's proved examples, and what the types are for, through the static library.

use gorgalhut::{book_sound, Command, Door, Entry, Inserted, Links, Queue, Refusal, Tally};

/// "Entries are due ticks 1, 2, 3 .., door 0, command 0".
fn due(tick: u32) -> Entry {
    Entry::new(tick, Door::Both, Command::of(0))
}

fn memory(links: Links) -> (Vec<u64>, Vec<u64>) {
    (vec![0; links.array_words()], vec![0; links.work_words()])
}

/// Inserts these ticks; gives the steps of the last insert, and whether it packed.
fn insert_all(queue: &mut Queue, ticks: std::ops::RangeInclusive<u32>) -> Inserted {
    let mut last = None;
    for tick in ticks {
        last = Some(queue.insert(due(tick)).unwrap());
    }
    last.unwrap()
}

#[test]
fn eight_inserts_and_a_take() {
    let (mut array, mut work) = memory(Links::One);
    let mut queue = Queue::set_up(&mut array, &mut work, Links::One).unwrap();
    assert_eq!(insert_all(&mut queue, 1..=8).steps, 0);
    let found = queue.take().unwrap();
    assert_eq!((found.entry, found.steps), (due(1), 16));
}

#[test]
fn the_seventeenth_is_refused() {
    let (mut array, mut work) = memory(Links::One);
    let mut queue = Queue::set_up(&mut array, &mut work, Links::One).unwrap();
    insert_all(&mut queue, 1..=16);
    let before = queue.array().to_vec();
    assert_eq!(queue.insert(due(17)), Err(Refusal::Full));
    assert_eq!(queue.array(), before);
    assert_eq!(queue.held(), Ok(16));
}

#[test]
fn the_twenty_fourth_packs_and_the_tally_knows() {
    let (mut array, mut work) = memory(Links::One);
    let mut queue = Queue::set_up(&mut array, &mut work, Links::One).unwrap();
    let mut tally = Tally::new();
    for tick in 1..=24 {
        let result = queue.insert(due(tick));
        tally.add_insert(&result);
        let packed = tick == 24;
        let steps = if packed { 16 } else { 0 };
        assert_eq!(result, Ok(Inserted { steps, packed }));
        if tick == 16 {
            for tick in 1..=8 {
                let taken = queue.take();
                tally.add_take(&taken);
                assert_eq!(taken.unwrap().entry, due(tick));
            }
        }
    }
    let refused = queue.insert(due(25));
    tally.add_insert(&refused);
    assert_eq!(refused, Err(Refusal::Full));
    let looked = queue.look();
    tally.add_look(&looked);
    assert_eq!(looked.unwrap().entry, due(9));
    let wanted = Tally {
        inserts: 24,
        takes: 8,
        steps: 32 + looked.unwrap().steps,
        packings: 1,
    };
    assert_eq!(tally, wanted);
}

#[test]
fn a_tally_keeps_its_largest_value() {
    let mut tally = Tally {
        inserts: u64::MAX,
        takes: 3,
        steps: u64::MAX - 1,
        packings: 0,
    };
    tally.add_insert(&Ok(Inserted {
        steps: 2,
        packed: true,
    }));
    let wanted = Tally {
        inserts: u64::MAX,
        takes: 3,
        steps: u64::MAX,
        packings: 1,
    };
    assert_eq!(tally, wanted);
}

#[test]
fn a_fresh_queue_holds_nothing() {
    let (mut array, mut work) = memory(Links::Two);
    let mut queue = Queue::set_up(&mut array, &mut work, Links::Two).unwrap();
    assert_eq!(queue.take(), Err(Refusal::NoneHeld));
    assert_eq!(queue.look(), Err(Refusal::NoneHeld));
    assert_eq!(queue.held(), Ok(0));
    assert_eq!(queue.audit(), Ok(()));
}

#[test]
fn memory_that_is_too_short() {
    let (mut array, mut work) = memory(Links::One);
    let short_work = Queue::set_up(&mut array, &mut work[..15], Links::One);
    assert_eq!(short_work.err(), Some(Refusal::WorkShort));
    let short_array = Queue::set_up(&mut array[..295], &mut work, Links::One);
    assert_eq!(short_array.err(), Some(Refusal::ArrayShort));
    let none = Queue::set_up(&mut [], &mut work, Links::One);
    assert_eq!(none.err(), Some(Refusal::ArrayShort));
    assert!(Queue::set_up(&mut array, &mut work, Links::One).is_ok());
}

#[test]
fn going_on_with_an_array() {
    let (mut array, mut work) = memory(Links::Two);
    let zeros = Queue::resume(&mut array, &mut work);
    assert_eq!(zeros.err(), Some(Refusal::BookBroken));
    assert!(!book_sound(&array));
    let mut queue = Queue::set_up(&mut array, &mut work, Links::Two).unwrap();
    insert_all(&mut queue, 1..=50);
    assert!(book_sound(&array));
    let short = Queue::resume(&mut array, &mut work[..95]);
    assert_eq!(short.err(), Some(Refusal::WorkShort));
    let mut queue = Queue::resume(&mut array, &mut work).unwrap();
    for tick in 1..=50 {
        assert_eq!(queue.take().unwrap().entry, due(tick));
    }
    array[0] = 5;
    let damaged = Queue::resume(&mut array, &mut work);
    assert_eq!(damaged.err(), Some(Refusal::BookBroken));
}

#[test]
fn equal_entries_come_out_twice() {
    let (mut array, mut work) = memory(Links::One);
    let mut queue = Queue::set_up(&mut array, &mut work, Links::One).unwrap();
    queue.insert(due(5)).unwrap();
    queue.insert(due(5)).unwrap();
    assert_eq!(queue.take().unwrap().entry, due(5));
    assert_eq!(queue.take().unwrap().entry, due(5));
    assert_eq!(queue.take(), Err(Refusal::NoneHeld));
}

/// Tick, then door, then command; as full as each queue can be.
#[test]
fn entries_come_out_in_their_order() {
    for links in [Links::One, Links::Two, Links::Three, Links::Four] {
        let (mut array, mut work) = memory(links);
        let mut queue = Queue::set_up(&mut array, &mut work, links).unwrap();
        let doors = [Door::Both, Door::Left, Door::Right];
        let mut entries: Vec<Entry> = (0..links.most_held() as u32)
            .map(|n| {
                let mixed = n.wrapping_mul(2_654_435_761);
                let command = Command::of(mixed & Command::MOST);
                Entry::new(mixed >> 20, doors[(mixed % 3) as usize], command)
            })
            .collect();
        for &entry in &entries {
            queue.insert(entry).unwrap();
        }
        assert_eq!(queue.insert(due(0)), Err(Refusal::Full));
        assert_eq!(queue.audit(), Ok(()));
        entries.sort();
        for entry in entries {
            assert_eq!(queue.take().unwrap().entry, entry);
        }
    }
}

#[test]
fn what_an_entry_is_made_of() {
    let entry = Entry::new(3, Door::Right, Command::of(7));
    assert_eq!(entry.word(), 0x0000_0003_0200_0007);
    assert_eq!(entry.tick(), 3);
    assert_eq!(entry.door(), Some(Door::Right));
    assert_eq!(entry.command().number(), 7);
    let other = Entry::from_word(0x0000_0003_0300_0000);
    assert_eq!((other.door(), other.door_byte()), (None, 3));
    assert_eq!(Command::new(1 << 24), None);
    let (mut array, mut work) = memory(Links::One);
    let mut queue = Queue::set_up(&mut array, &mut work, Links::One).unwrap();
    assert_eq!(queue.insert(other), Err(Refusal::DoorAbove));
}

#[test]
fn every_refusal_has_its_number() {
    let known = |&number: &u8| Refusal::of_number(number).is_some();
    let numbers: Vec<u8> = (0..=u8::MAX).filter(known).collect();
    assert_eq!(numbers, [1, 2, 3, 4, 5, 6, 7, 9, 10, 15]);
    for number in numbers {
        assert_eq!(Refusal::of_number(number).unwrap().number(), number);
    }
    assert_eq!(Refusal::OrderBroken.number(), 9);
    assert_eq!(Refusal::NotAFrame.number(), 10);
    assert_eq!(Refusal::Full.to_string(), "the queue is full");
}
