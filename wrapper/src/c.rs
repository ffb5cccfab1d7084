//! The library's functions by their C names; `include/gorgalhut.h` says what each does.

extern "C" {
    pub fn gorgalhut_book_sound(array: *const u64, array_words: usize) -> bool;
    pub fn gorgalhut_setup(
        array: *mut u64,
        array_words: usize,
        links: u64,
        word: *mut u64,
        steps: *mut u64,
    ) -> u8;
    pub fn gorgalhut_insert(
        array: *mut u64,
        array_words: usize,
        work: *mut u64,
        work_words: usize,
        entry: u64,
        word: *mut u64,
        steps: *mut u64,
        packed: *mut bool,
    ) -> u8;
    pub fn gorgalhut_take(
        array: *mut u64,
        array_words: usize,
        word: *mut u64,
        steps: *mut u64,
    ) -> u8;
    pub fn gorgalhut_look(
        array: *mut u64,
        array_words: usize,
        word: *mut u64,
        steps: *mut u64,
    ) -> u8;
    pub fn gorgalhut_held(
        array: *const u64,
        array_words: usize,
        word: *mut u64,
        steps: *mut u64,
    ) -> u8;
    pub fn gorgalhut_audit(
        array: *const u64,
        array_words: usize,
        word: *mut u64,
        steps: *mut u64,
    ) -> u8;
    pub fn gorgalhut_tally_add(
        inserts: *mut u64,
        takes: *mut u64,
        steps: *mut u64,
        packings: *mut u64,
        call: u8,
        answer: u8,
        call_steps: u64,
        packed: bool,
    ) -> bool;
    pub fn gorgalhut_read_frame(
        line: *const u8,
        line_bytes: usize,
        kind: *mut u8,
        value: *mut u64,
    ) -> u8;
    pub fn gorgalhut_write_frame(
        kind: u8,
        value: u64,
        out: *mut u8,
        out_bytes: usize,
        written: *mut usize,
    ) -> u8;
    pub fn gorgalhut_answer_line(
        answer: u8,
        word: u64,
        steps: u64,
        out: *mut u8,
        out_bytes: usize,
        written: *mut usize,
    ) -> u8;
    pub fn gorgalhut_lateness(
        due: *const u32,
        due_count: usize,
        acting: *const u32,
        acting_count: usize,
        doors: *const u8,
        door_count: usize,
        report: *mut i64,
        report_numbers: usize,
    ) -> u8;
}
