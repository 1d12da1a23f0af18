//! An allocator that counts, where it is asked to, the most bytes that are held at once. Asked or not, it takes memory from
//! the system as a program without it would.
use std::alloc::{GlobalAlloc, Layout, System};
use std::sync::atomic::{AtomicBool, AtomicUsize, Ordering::Relaxed};

pub struct Counting;

static COUNTS: AtomicBool = AtomicBool::new(false);
static HELD: AtomicUsize = AtomicUsize::new(0);
static MOST: AtomicUsize = AtomicUsize::new(0);

/// The most bytes that a piece of work holds at once, beyond what was held before it. 0 where the program's allocator is
/// another.
pub fn most_bytes<T>(work: impl FnOnce() -> T) -> usize {
    HELD.store(0, Relaxed);
    MOST.store(0, Relaxed);
    COUNTS.store(true, Relaxed);
    let answer = work();
    COUNTS.store(false, Relaxed);
    drop(answer);
    MOST.load(Relaxed)
}

fn take(bytes: usize) {
    let held = HELD.load(Relaxed) + bytes;
    HELD.store(held, Relaxed);
    MOST.fetch_max(held, Relaxed);
}

fn give_back(bytes: usize) {
    HELD.store(HELD.load(Relaxed).saturating_sub(bytes), Relaxed);
}

// SAFETY: every call is handed to the system's allocator as it is.
unsafe impl GlobalAlloc for Counting {
    unsafe fn alloc(&self, layout: Layout) -> *mut u8 {
        if COUNTS.load(Relaxed) {
            take(layout.size());
        }
        System.alloc(layout)
    }

    unsafe fn dealloc(&self, at: *mut u8, layout: Layout) {
        if COUNTS.load(Relaxed) {
            give_back(layout.size());
        }
        System.dealloc(at, layout)
    }

    unsafe fn realloc(&self, at: *mut u8, layout: Layout, bytes: usize) -> *mut u8 {
        if COUNTS.load(Relaxed) {
            give_back(layout.size());
            take(bytes);
        }
        System.realloc(at, layout, bytes)
    }
}
