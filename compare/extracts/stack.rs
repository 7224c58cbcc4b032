//! How much stack a call takes: it runs in a thread whose stack was painted before, and what is painted still was not
//! reached.
use std::thread::{Builder, scope};

const STACK: usize = 16 << 20;
/// What the thread has taken before it paints, at the most, and what stands just below the painter.
const TAKEN: usize = 256 << 10;
const NEAR: usize = 4 << 10;
const PAINT: u64 = 0x7061_696e_7465_6421;
const WORD: usize = size_of::<u64>();

/// The bytes of stack that a call takes.
pub fn taken(call: impl FnOnce() + Send) -> usize {
    scope(|threads| {
        let painted = move || {
            let (lowest, top) = paint();
            call();
            top - reached(lowest)
        };
        let thread = Builder::new().stack_size(STACK).spawn_scoped(threads, painted).expect("a thread");
        thread.join().expect("the call returns")
    })
}

/// Paints the stack below this function; its lowest and its highest place.
#[inline(never)]
fn paint() -> (usize, usize) {
    let here = 0u64;
    let top = &raw const here as usize & !(WORD - 1);
    let lowest = top - (STACK - TAKEN);
    for place in (lowest..top - NEAR).step_by(WORD) {
        // this thread's own stack, of which nothing below this function is in use
        unsafe { (place as *mut u64).write_volatile(PAINT) };
    }
    (lowest, top)
}

/// The lowest place that was written after it was painted.
#[inline(never)]
fn reached(lowest: usize) -> usize {
    let mut place = lowest;
    // as above
    while unsafe { (place as *const u64).read_volatile() } == PAINT {
        place += WORD;
    }
    place
}
