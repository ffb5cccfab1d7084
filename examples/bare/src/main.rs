//! Two orders through the queue on a box without std: done with 0 if they come out as they are due.
//! Were std or an allocator anywhere below, this would not build.

#![no_std]
#![no_main]

use core::panic::PanicInfo;
use gorgalhut::{Command, Door, Entry, Links, Queue, Result};

// A box brings its own start, abort and memset; here they are C's.
#[link(name = "c")]
extern "C" {
    fn abort() -> !;
}

#[panic_handler]
fn stop(_: &PanicInfo) -> ! {
    // SAFETY: nothing is asked of its caller.
    unsafe { abort() }
}

fn in_order() -> Result<bool> {
    let mut array = [0; Links::One.array_words()];
    let mut work = [0; Links::One.work_words()];
    let mut queue = Queue::set_up(&mut array, &mut work, Links::One)?;
    let horn = Entry::new(30_000, Door::Both, Command::of(2));
    let lamp = Entry::new(10_000, Door::Both, Command::of(1));
    queue.insert(horn)?;
    queue.insert(lamp)?;
    Ok(queue.take()?.entry == lamp && queue.take()?.entry == horn)
}

#[no_mangle]
pub extern "C" fn main() -> i32 {
    i32::from(in_order() != Ok(true))
}
