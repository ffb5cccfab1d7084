//! The worked examples 1 to 9 of the requirement document and its frame session.

mod common;

use common::{entry, insert_ticks, machine, queue, run_lines, set_up};
use reference::frames::answer_line;
use reference::machine::{Machine, Outcome};

fn given(word: u64, steps: u64) -> Outcome {
    Outcome {
        word,
        steps,
        ..Outcome::default()
    }
}

#[test]
fn example_1() {
    let mut machine = set_up(1);
    assert_eq!(insert_ticks(&mut machine, 1, 8), 0);
    assert_eq!(queue(&machine).buffers[0][2].len(), 8);
    assert_eq!(queue(&machine).c, [2]);
    assert_eq!(machine.take(), given(entry(1), 16));
}

#[test]
fn example_2() {
    let mut machine = set_up(1);
    insert_ticks(&mut machine, 1, 16);
    let before = machine.clone();
    assert_eq!(machine.insert(entry(17)), Outcome::refused(5));
    assert_eq!(machine, before);
}

#[test]
fn example_3() {
    let mut machine = set_up(1);
    let mut total = insert_ticks(&mut machine, 1, 16);
    for tick in 1..=8 {
        let taken = machine.take();
        assert_eq!((taken.answer, taken.word), (0, entry(tick)));
        total += taken.steps;
    }
    total += insert_ticks(&mut machine, 17, 23);
    let last = machine.insert(entry(24));
    assert_eq!((last.answer, last.steps, last.packed), (0, 16, true));
    assert_eq!(total + last.steps, 32);
    assert_eq!(queue(&machine).c, [3]);
}

#[test]
fn example_4() {
    let mut machine = set_up(2);
    insert_ticks(&mut machine, 1, 23);
    let last = machine.insert(entry(24));
    assert_eq!((last.answer, last.steps, last.swept_to), (0, 32, Some(2)));
    assert_eq!(queue(&machine).buffers[1][4].len(), 24);
    assert_eq!(queue(&machine).c, [1, 2]);
}

#[test]
fn example_5() {
    let mut machine = set_up(2);
    insert_ticks(&mut machine, 1, 16);
    assert_eq!(machine.take().word, entry(1));
    insert_ticks(&mut machine, 17, 24);
    assert_eq!(queue(&machine).buffers[0][0].len(), 7);
    assert_eq!(queue(&machine).buffers[1][4].len(), 16);
}

#[test]
fn example_6() {
    for links in 1..=4 {
        assert_eq!(set_up(links).take(), Outcome::refused(6));
    }
}

#[test]
fn example_7() {
    let mut machine = set_up(1);
    machine.work_words = 15;
    assert_eq!(machine.insert(entry(1)), Outcome::refused(3));
    machine.work_words = 16;
    assert_eq!(machine.insert(entry(1)), Outcome::default());
}

#[test]
fn example_8() {
    for (words, answer) in [(295, 2), (296, 4)] {
        let mut machine = Machine::zeros(words, 16);
        assert_eq!(machine.insert(entry(1)), Outcome::refused(answer));
        assert_eq!(machine.take(), Outcome::refused(answer));
        assert_eq!(machine.look(), Outcome::refused(answer));
        assert_eq!(machine.held(), Outcome::refused(answer));
        assert_eq!(machine.audit(), Outcome::refused(answer));
    }
}

#[test]
fn example_9() {
    let mut machine = set_up(1);
    assert_eq!(machine.insert(entry(5)).answer, 0);
    assert_eq!(machine.insert(entry(5)).answer, 0);
    assert_eq!(machine.take(), given(entry(5), 0));
    assert_eq!(machine.take(), given(entry(5), 0));
    assert_eq!(machine.take(), Outcome::refused(6));
}

#[test]
fn frame_session_of_the_document() {
    let session = "\
        0001                 00000000000000000000000000
        010000000302000007   00000000000000000000000000
        010000000301000007   00000000000000000000000000
        03                   00000000030100000700000000
        02                   00000000030100000700000000
        04                   00000000000000000100000000
        02                   00000000030200000700000000
        02                   06000000000000000000000000
        010000000303000000   07000000000000000000000000";
    let mut machine = machine(3);
    for row in session.lines() {
        let mut columns = row.split_whitespace();
        let (frame, answer) = (columns.next().unwrap(), columns.next().unwrap());
        let outcomes = run_lines(&mut machine, frame.as_bytes());
        assert_eq!(outcomes.len(), 1);
        assert_eq!(answer_line(&outcomes[0]), answer, "{frame}");
    }
}

/// ""0004" answers 02; "02" before setup answers 04."
#[test]
fn frames_before_setup() {
    let outcomes = run_lines(&mut machine(3), b"0004\n02\n");
    assert_eq!(outcomes, [Outcome::refused(2), Outcome::refused(4)]);
}
