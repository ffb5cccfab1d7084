//! The C names of joins, for bench/ as well. A slice is a pointer and a length in words.

extern "C" {
    pub fn joins_join(
        xs: *const u64,
        xs_words: usize,
        ys: *const u64,
        ys_words: usize,
        out: *mut u64,
        out_words: usize,
        rest: *mut u64,
        rest_words: usize,
        handed: *mut usize,
    ) -> bool;
    pub fn joins_part(
        xs: *const u64,
        xs_words: usize,
        ys: *const u64,
        ys_words: usize,
        out: *mut u64,
        out_words: usize,
        first: *mut usize,
    ) -> bool;
}
