//! Counts the submissions that the original makes, those included that one call makes and
//! replaces. A submission's token is an `Arc<()>`: two counters on the heap and nothing else. No
//! other allocation of a sender has that size and alignment, so allocations of this layout during
//! a call are the submissions that the call made.

use std::alloc::{GlobalAlloc, Layout, System};
use std::cell::Cell;
use std::sync::Arc;

struct Counting;

#[global_allocator]
static ALLOCATOR: Counting = Counting;

thread_local! {
    static MADE: Cell<u64> = const { Cell::new(0) };
}

const TOKEN: Layout = Layout::new::<[usize; 2]>();

// SAFETY: every call is passed on to the system's allocator as it came.
unsafe impl GlobalAlloc for Counting {
    unsafe fn alloc(&self, layout: Layout) -> *mut u8 {
        if layout == TOKEN {
            MADE.set(MADE.get() + 1);
        }
        // SAFETY: the caller's promises are the ones that the system's allocator asks for.
        unsafe { System.alloc(layout) }
    }

    unsafe fn dealloc(&self, pointer: *mut u8, layout: Layout) {
        // SAFETY: as above, and `alloc` got the pointer from the system's allocator.
        unsafe { System.dealloc(pointer, layout) }
    }
}

/// Runs `call` and tells how many tokens it made.
pub fn counted<T>(call: impl FnOnce() -> T) -> (T, u64) {
    let before = MADE.get();
    let result = call();
    (result, MADE.get() - before)
}

/// Stops the program where a token is not counted as one.
pub fn check_counting() {
    let (tokens, made) = counted(|| [Arc::new(()), Arc::new(())]);
    assert_eq!(made, 2, "an Arc has another layout here");
    drop(tokens);
}
