//! The library that is counted, and memory to lend it.

pub use gorgalhut::c::{
    gorgalhut_book_sound, gorgalhut_held, gorgalhut_insert, gorgalhut_setup, gorgalhut_take,
};

/// Words of the lent array and of the work area, for one to four links.
const SIZES: [(usize, usize); 4] = [(296, 16), (536, 96), (2_628, 960), (28_436, 17_280)];

/// Memory for a queue of so many links: the array and the work area.
pub fn memory(links: usize) -> (Vec<u64>, Vec<u64>) {
    let (words, work) = SIZES[links - 1];
    (vec![0; words], vec![0; work])
}
