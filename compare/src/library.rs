//! The library's functions by their C names, and one safe way to call each.

pub mod joins;
pub mod lateness;

use crate::lent::Lent;
use reference::array::calls::Call;

// A slice is a pointer and a length in words; the result is the answer's number.
extern "C" {
    #[cfg(feature = "book")]
    fn gorgalhut_book_sound(array: *const u64, words: usize) -> bool;
    #[cfg(feature = "calls")]
    fn gorgalhut_setup(
        array: *mut u64,
        words: usize,
        links: u64,
        word: *mut u64,
        steps: *mut u64,
    ) -> u8;
    #[cfg(feature = "insert")]
    fn gorgalhut_insert(
        array: *mut u64,
        words: usize,
        work: *mut u64,
        work_words: usize,
        entry: u64,
        word: *mut u64,
        steps: *mut u64,
        packed: *mut bool,
    ) -> u8;
    #[cfg(feature = "takes")]
    fn gorgalhut_take(array: *mut u64, words: usize, word: *mut u64, steps: *mut u64) -> u8;
    #[cfg(feature = "takes")]
    fn gorgalhut_look(array: *mut u64, words: usize, word: *mut u64, steps: *mut u64) -> u8;
    #[cfg(feature = "takes")]
    fn gorgalhut_held(array: *const u64, words: usize, word: *mut u64, steps: *mut u64) -> u8;
    #[cfg(feature = "calls")]
    fn gorgalhut_audit(array: *const u64, words: usize, word: *mut u64, steps: *mut u64) -> u8;
    #[cfg(feature = "frames")]
    fn gorgalhut_read_frame(line: *const u8, bytes: usize, kind: *mut u8, value: *mut u64) -> u8;
    #[cfg(feature = "frames")]
    fn gorgalhut_write_frame(
        kind: u8,
        value: u64,
        out: *mut u8,
        bytes: usize,
        written: *mut usize,
    ) -> u8;
    #[cfg(feature = "frames")]
    fn gorgalhut_answer_line(
        answer: u8,
        word: u64,
        steps: u64,
        out: *mut u8,
        bytes: usize,
        written: *mut usize,
    ) -> u8;
    #[cfg(feature = "frames")]
    fn gorgalhut_tally_add(
        inserts: *mut u64,
        takes: *mut u64,
        steps: *mut u64,
        packings: *mut u64,
        call: u8,
        answer: u8,
        made: u64,
        packed: bool,
    ) -> bool;
}

/// What a call brought back.
#[derive(Clone, Copy, Debug, PartialEq, Eq)]
pub struct Got {
    pub answer: u8,
    pub word: u64,
    pub steps: u64,
    pub packed: bool,
    /// Whether something was written beside word, steps or packed.
    pub beside: bool,
}

/// Where a call's results go, with canaries between and around them.
#[cfg(any(feature = "takes", feature = "insert"))]
#[repr(C)]
struct Places {
    before: u64,
    word: u64,
    between: u64,
    steps: u64,
    behind: [u8; 8],
    packed: bool,
    last: [u8; 15],
}

#[cfg(any(feature = "takes", feature = "insert"))]
const WORD_CANARY: u64 = 0xC0DE_CAFE_C0DE_CAFE;
#[cfg(any(feature = "takes", feature = "insert"))]
const BYTE_CANARY: u8 = 0xC5;

#[cfg(any(feature = "takes", feature = "insert"))]
impl Places {
    /// What stands there before a call, so that a result left unwritten is seen.
    fn unwritten(packed: bool) -> Places {
        Places {
            before: WORD_CANARY,
            word: 0xBAD0_BAD0_BAD0_BAD0,
            between: WORD_CANARY,
            steps: 0xBAD1_BAD1_BAD1_BAD1,
            behind: [BYTE_CANARY; 8],
            packed,
            last: [BYTE_CANARY; 15],
        }
    }

    fn got(&self, answer: u8) -> Got {
        let words_stand = [self.before, self.between] == [WORD_CANARY; 2];
        let bytes_stand = self.behind == [BYTE_CANARY; 8] && self.last == [BYTE_CANARY; 15];
        Got {
            answer,
            word: self.word,
            steps: self.steps,
            packed: self.packed,
            beside: !(words_stand && bytes_stand),
        }
    }
}

/// The library's verdict on the book of the lent array.
#[cfg(feature = "book")]
pub fn book_sound(array: &mut Lent) -> bool {
    // SAFETY: the pointer and length are those of memory that is lent.
    unsafe { gorgalhut_book_sound(array.pointer(), array.length()) }
}

#[cfg(not(feature = "book"))]
pub fn book_sound(_array: &mut Lent) -> bool {
    unreachable!("built without the feature book")
}

/// Makes a call. `packed` is what stands there before it.
pub fn call(array: &mut Lent, work: &mut Lent, call: Call, packed: bool) -> Got {
    match call {
        Call::Insert(entry, _) => insert(array, work, entry, packed),
        // Only an insert tells whether it packed.
        _ => Got {
            packed: false,
            ..call_without_work(array, call)
        },
    }
}

#[cfg(feature = "takes")]
fn call_without_work(array: &mut Lent, call: Call) -> Got {
    let mut places = Places::unwritten(false);
    let (lent, length) = (array.pointer(), array.length());
    let (word, steps) = (&raw mut places.word, &raw mut places.steps);
    // SAFETY: each pointer is of memory that is lent for the call.
    let answer = unsafe {
        match call {
            #[cfg(feature = "calls")]
            Call::Setup(links) => gorgalhut_setup(lent, length, links, word, steps),
            Call::Take => gorgalhut_take(lent, length, word, steps),
            Call::Look => gorgalhut_look(lent, length, word, steps),
            Call::Held => gorgalhut_held(lent, length, word, steps),
            #[cfg(feature = "calls")]
            Call::Audit => gorgalhut_audit(lent, length, word, steps),
            #[cfg(not(feature = "calls"))]
            Call::Setup(_) | Call::Audit => unreachable!("built without the feature calls"),
            Call::Insert(..) => unreachable!("an insert has a work area"),
        }
    };
    places.got(answer)
}

#[cfg(not(feature = "takes"))]
fn call_without_work(_array: &mut Lent, _call: Call) -> Got {
    unreachable!("built without the feature takes")
}

#[cfg(feature = "insert")]
fn insert(array: &mut Lent, work: &mut Lent, entry: u64, packed: bool) -> Got {
    let mut places = Places::unwritten(packed);
    // SAFETY: each pointer is of memory that is lent for the call.
    let answer = unsafe {
        gorgalhut_insert(
            array.pointer(),
            array.length(),
            work.pointer(),
            work.length(),
            entry,
            &raw mut places.word,
            &raw mut places.steps,
            &raw mut places.packed,
        )
    };
    places.got(answer)
}

#[cfg(not(feature = "insert"))]
fn insert(_array: &mut Lent, _work: &mut Lent, _entry: u64, _packed: bool) -> Got {
    unreachable!("built without the feature insert")
}

/// What a writer brought back.
#[derive(Clone, Copy, Debug, PartialEq, Eq)]
pub struct Line {
    pub answer: u8,
    pub written: usize,
}

/// What the tally said, and its four numbers afterwards.
#[derive(Clone, Copy, Debug, PartialEq, Eq)]
pub struct TallyGot {
    pub known: bool,
    pub fields: [u64; 4],
}

#[cfg(feature = "frames")]
pub use with_frames::{answer_line, read_frame, tally_add, write_frame};
#[cfg(not(feature = "frames"))]
pub use without_frames::{answer_line, read_frame, tally_add, write_frame};

#[cfg(feature = "frames")]
mod with_frames {
    use super::*;

    /// Answer, code and value of a line.
    pub fn read_frame(line: &mut Lent<u8>) -> (u8, u8, u64) {
        let (mut kind, mut value) = (0xBA, 0xBAD0_BAD0_BAD0_BAD0);
        let (lent, length) = (line.pointer(), line.length());
        // SAFETY: each pointer is of memory that is lent for the call.
        let answer = unsafe { gorgalhut_read_frame(lent, length, &raw mut kind, &raw mut value) };
        (answer, kind, value)
    }

    pub fn write_frame(kind: u8, value: u64, out: &mut Lent<u8>) -> Line {
        let mut written = 0xBAD0;
        let (lent, length) = (out.pointer(), out.length());
        // SAFETY: each pointer is of memory that is lent for the call.
        let answer = unsafe { gorgalhut_write_frame(kind, value, lent, length, &raw mut written) };
        Line { answer, written }
    }

    pub fn answer_line(answer: u8, word: u64, steps: u64, out: &mut Lent<u8>) -> Line {
        let mut written = 0xBAD0;
        let (lent, length) = (out.pointer(), out.length());
        // SAFETY: each pointer is of memory that is lent for the call.
        let answer =
            unsafe { gorgalhut_answer_line(answer, word, steps, lent, length, &raw mut written) };
        Line { answer, written }
    }

    pub fn tally_add(day: [u64; 4], call: u8, answer: u8, made: u64, packed: bool) -> TallyGot {
        let [mut inserts, mut takes, mut steps, mut packings] = day;
        // SAFETY: each pointer is of a number that is lent for the call.
        let known = unsafe {
            gorgalhut_tally_add(
                &raw mut inserts,
                &raw mut takes,
                &raw mut steps,
                &raw mut packings,
                call,
                answer,
                made,
                packed,
            )
        };
        let fields = [inserts, takes, steps, packings];
        TallyGot { known, fields }
    }
}

#[cfg(not(feature = "frames"))]
mod without_frames {
    use super::*;

    pub fn read_frame(_line: &mut Lent<u8>) -> (u8, u8, u64) {
        unreachable!("built without the feature frames")
    }

    pub fn write_frame(_kind: u8, _value: u64, _out: &mut Lent<u8>) -> Line {
        unreachable!("built without the feature frames")
    }

    pub fn answer_line(_answer: u8, _word: u64, _steps: u64, _out: &mut Lent<u8>) -> Line {
        unreachable!("built without the feature frames")
    }

    pub fn tally_add(
        _day: [u64; 4],
        _call: u8,
        _answer: u8,
        _made: u64,
        _packed: bool,
    ) -> TallyGot {
        unreachable!("built without the feature frames")
    }
}
