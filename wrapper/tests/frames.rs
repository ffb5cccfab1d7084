//! Frames read and written, and the document's session, through the static library.

use gorgalhut::{answer_line, Entry, Links, Order, Queue, Refusal, Result};
use gorgalhut::{ANSWER_LINE_BYTES, FRAME_BYTES};

fn written(order: Order) -> String {
    let mut out = [0; FRAME_BYTES];
    let digits = order.write(&mut out).unwrap();
    String::from_utf8(digits.to_vec()).unwrap()
}

#[test]
fn orders_there_and_back() {
    for (line, order) in [
        ("0001", Order::SetUp(1)),
        ("00FF", Order::SetUp(255)),
        (
            "010000000302000007",
            Order::Insert(Entry::from_word(0x3_0200_0007)),
        ),
        (
            "01FFFFFFFFFFFFFFFF",
            Order::Insert(Entry::from_word(u64::MAX)),
        ),
        ("02", Order::Take),
        ("03", Order::Look),
        ("04", Order::Held),
        ("05", Order::Audit),
    ] {
        assert_eq!(Order::read(line.as_bytes()), Ok(order));
        assert_eq!(written(order), line);
    }
}

#[test]
fn lines_that_are_no_frames() {
    for line in [
        "",
        "0",
        "00",
        "000",
        "000a",
        "00001",
        "06",
        "0200",
        "02 ",
        "01000000030200000",
        "0100000003020000070",
        "\n",
    ] {
        assert_eq!(
            Order::read(line.as_bytes()),
            Err(Refusal::NotAFrame),
            "{line:?}"
        );
    }
    assert_eq!(Order::read(&[0xFF; 1000]), Err(Refusal::NotAFrame));
}

#[test]
fn buffers_that_are_too_short_or_longer() {
    let mut out = [b'.'; 20];
    assert_eq!(
        Order::SetUp(2).write(&mut out[..3]).err(),
        Some(Refusal::NotAFrame)
    );
    assert_eq!(
        Order::Take.write(&mut out[..0]).err(),
        Some(Refusal::NotAFrame)
    );
    let short = answer_line(0, 0, 0, &mut out);
    assert_eq!(short.err(), Some(Refusal::NotAFrame));
    assert_eq!(out, [b'.'; 20]);
    assert_eq!(Order::SetUp(2).write(&mut out).unwrap(), b"0002");
    assert_eq!(&out[4..], [b'.'; 16]);
}

#[test]
fn steps_of_nine_digits_have_no_line() {
    let mut out = [0; ANSWER_LINE_BYTES];
    let long = answer_line(0, 0, 1 << 32, &mut out);
    assert_eq!(long.err(), Some(Refusal::NotAFrame));
    assert_eq!(out, [0; ANSWER_LINE_BYTES]);
    let most = answer_line(10, u64::MAX, (1 << 32) - 1, &mut out).unwrap();
    assert_eq!(most, b"0AFFFFFFFFFFFFFFFFFFFFFFFF\n");
}

fn answered(result: Result<(u64, u64)>) -> String {
    let (answer, word, steps) = match result {
        Ok((word, steps)) => (0, word, steps),
        Err(refusal) => (refusal.number(), 0, 0),
    };
    let mut out = [0; ANSWER_LINE_BYTES];
    let line = answer_line(answer, word, steps, &mut out).unwrap();
    String::from_utf8(line.to_vec()).unwrap()
}

/// The document's session, after its first line.
#[test]
fn the_documents_session() {
    let (mut array, mut work) = ([0; 2_628], [0; 960]);
    let mut queue = Queue::set_up(&mut array, &mut work, Links::One).unwrap();
    for (line, answer) in [
        ("010000000302000007", "00000000000000000000000000"),
        ("010000000301000007", "00000000000000000000000000"),
        ("03", "00000000030100000700000000"),
        ("02", "00000000030100000700000000"),
        ("04", "00000000000000000100000000"),
        ("02", "00000000030200000700000000"),
        ("02", "06000000000000000000000000"),
        ("010000000303000000", "07000000000000000000000000"),
        ("020", "0A000000000000000000000000"),
        ("05", "00000000000000000000000000"),
    ] {
        let result = Order::read(line.as_bytes()).and_then(|order| match order {
            Order::SetUp(_) => unreachable!("set up already"),
            Order::Insert(entry) => queue.insert(entry).map(|done| (0, done.steps)),
            Order::Take => queue.take().map(|found| (found.entry.word(), found.steps)),
            Order::Look => queue.look().map(|found| (found.entry.word(), found.steps)),
            Order::Held => queue.held().map(|many| (many, 0)),
            Order::Audit => queue.audit().map(|()| (0, 0)),
        });
        assert_eq!(answered(result), format!("{answer}\n"), "{line}");
    }
}
