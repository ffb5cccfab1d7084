//! An allocator whose pieces begin at a page, so that misses do not depend on where memory happens to lie.

use std::alloc::{GlobalAlloc, Layout, System};

/// Bytes of a page; the sets of a 16 KiB cache of eight ways repeat after 2,048.
const PAGE: usize = 4_096;

pub struct Aligned;

/// The same layout, from the beginning of a page on.
fn at_a_page(layout: Layout) -> Layout {
    // SAFETY: PAGE is a power of two, and no size here comes near the largest one.
    unsafe { Layout::from_size_align_unchecked(layout.size(), layout.align().max(PAGE)) }
}

// SAFETY: the system's allocator does the work, always asked with the same layout.
unsafe impl GlobalAlloc for Aligned {
    unsafe fn alloc(&self, layout: Layout) -> *mut u8 {
        System.alloc(at_a_page(layout))
    }

    unsafe fn dealloc(&self, pointer: *mut u8, layout: Layout) {
        System.dealloc(pointer, at_a_page(layout))
    }
}
