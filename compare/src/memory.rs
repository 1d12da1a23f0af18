//! Lent memory with pages around it that cannot be touched, filled with rubbish before a call.
//!
//! A part is lent either flush against the page behind or flush against the page before; on its other side some bytes are
//! watched. A touch of a page that cannot be touched ends the program with status 1. Regions are kept to the program's end.
use crate::answer::*;
use std::ffi::{c_int, c_void};
use std::sync::atomic::{AtomicU64, Ordering};

/// What stands in lent memory before a call, and beside it after one.
pub const RUBBISH: u32 = 0xA5C3_0FF1;
pub const RUBBISH_BYTE: u8 = 0xA5;

/// How many bytes beside a part are watched.
const WATCHED: usize = 32;
const WATCHED_RUBBISH: [u8; WATCHED] = [RUBBISH_BYTE; WATCHED];

/// A page is at most so long.
const PAGE: usize = 65_536;

/// Where a part stands in its region.
#[derive(Clone, Copy, Debug, PartialEq, Eq)]
pub enum Edge {
    Front,
    Back,
}

/// A region of bytes between two pages that cannot be touched.
pub struct Guarded {
    start: *mut u8,
    bytes: usize,
}

impl Guarded {
    /// A region of at least so many bytes.
    pub fn new(bytes: usize) -> Self {
        let bytes = (bytes + 2 * WATCHED).next_multiple_of(PAGE);
        // SAFETY: a fresh private region is mapped, and only its inner pages are opened.
        let start = unsafe {
            let start = mmap(std::ptr::null_mut(), bytes + 2 * PAGE, NO_TOUCH, PRIVATE_ANONYMOUS, -1, 0);
            assert!(start as isize != -1, "no memory");
            let start = start.cast::<u8>().add(PAGE);
            assert!(mprotect(start.cast(), bytes, READ_WRITE) == 0, "no memory");
            start
        };
        Guarded { start, bytes }
    }

    /// Where a part of so many bytes stands.
    fn part(&self, bytes: usize, edge: Edge) -> *mut u8 {
        assert!(bytes + WATCHED <= self.bytes, "{} bytes are more than the region has", bytes);
        let at = if edge == Edge::Front { 0 } else { self.bytes - bytes };
        // SAFETY: at most the region's bytes are stepped over.
        unsafe { self.start.add(at) }
    }

    /// Where the bytes beside a part stand, which are not lent.
    fn beside(&self, bytes: usize, edge: Edge) -> *mut [u8; WATCHED] {
        let at = if edge == Edge::Front { bytes } else { self.bytes - bytes - WATCHED };
        // SAFETY: at most the region's bytes are stepped over; a part leaves room beside it.
        unsafe { self.start.add(at).cast() }
    }

    /// A part of so many bytes to be written, with rubbish beside it.
    pub fn bytes(&mut self, bytes: usize, edge: Edge) -> &mut [u8] {
        // SAFETY: the bytes are the region's, and borrowed as it is.
        unsafe {
            let part = std::slice::from_raw_parts_mut(self.part(bytes, edge), bytes);
            *self.beside(bytes, edge) = WATCHED_RUBBISH;
            part
        }
    }

    /// A part of so many words to be written, with rubbish beside it.
    pub fn words(&mut self, words: usize, edge: Edge) -> &mut [u32] {
        let bytes = self.bytes(words * 4, edge);
        // SAFETY: as many bytes as the words have, aligned since regions and words have lengths that 4 divides.
        unsafe { std::slice::from_raw_parts_mut(bytes.as_mut_ptr().cast(), words) }
    }

    /// A part of so many words of 64 bits to be written, with rubbish beside it.
    pub fn long_words(&mut self, words: usize, edge: Edge) -> &mut [u64] {
        let bytes = self.bytes(words * 8, edge);
        // SAFETY: as many bytes as the words have, aligned since regions and words have lengths that 8 divides.
        unsafe { std::slice::from_raw_parts_mut(bytes.as_mut_ptr().cast(), words) }
    }

    /// The same part to be read.
    pub fn read_bytes(&self, bytes: usize, edge: Edge) -> &[u8] {
        // SAFETY: the bytes are the region's, and borrowed as it is.
        unsafe { std::slice::from_raw_parts(self.part(bytes, edge), bytes) }
    }

    pub fn read_words(&self, words: usize, edge: Edge) -> &[u32] {
        // SAFETY: the bytes are the region's, borrowed as it is, and aligned for words.
        unsafe { std::slice::from_raw_parts(self.part(words * 4, edge).cast(), words) }
    }

    /// Whether the rubbish beside a part of so many bytes still stands.
    pub fn is_whole(&self, bytes: usize, edge: Edge) -> bool {
        // SAFETY: the bytes are the region's.
        unsafe { *self.beside(bytes, edge) == WATCHED_RUBBISH }
    }
}

/// Memory for every argument of a call.
pub struct Memory {
    pub text: Guarded,
    pub tables: [Guarded; 4],
    pub work: Guarded,
    pub output: Guarded,
    pub file: Guarded,
    pub edge: Edge,
}

impl Memory {
    /// Memory for any text that is read, for one a byte too long, and for what it needs to be printed.
    #[allow(clippy::new_without_default)]
    pub fn new() -> Self {
        stop_at_a_touch();
        Memory {
            text: Guarded::new(LONGEST + 1),
            tables: ROW_WORDS.map(|words| Guarded::new((LONGEST + 2) * words * 4)),
            work: Guarded::new((4 * LONGEST + 16) * 4),
            output: Guarded::new(32 * LONGEST),
            file: Guarded::new(LONGEST * 160),
            edge: Edge::Back,
        }
    }

    /// Turns to the other edge.
    pub fn turn(&mut self) {
        self.edge = if self.edge == Edge::Back { Edge::Front } else { Edge::Back };
    }
}

/// Which case is being tried, for the message of a touch.
pub static CASE: AtomicU64 = AtomicU64::new(0);

/// Has a touch of a page that cannot be touched end the program with a message and status 1.
fn stop_at_a_touch() {
    for signal in [SEGMENT_FAULT, BUS_FAULT] {
        // SAFETY: the handler only writes a message and ends the program.
        unsafe { signal_handler(signal, touched) };
    }
}

extern "C" fn touched(_: c_int) {
    let mut message = *b"memory was touched that was not lent, in case 00000000000000000000\n";
    let mut case = CASE.load(Ordering::Relaxed);
    for digit in message[46..66].iter_mut().rev() {
        *digit = b'0' + (case % 10) as u8;
        case /= 10;
    }
    // SAFETY: both calls are allowed in a handler; the message is as long as is said.
    unsafe {
        write(2, message.as_ptr().cast(), message.len());
        _exit(1)
    }
}

// What is taken from the C library, with Linux's numbers.
const NO_TOUCH: c_int = 0;
const READ_WRITE: c_int = 3;
const PRIVATE_ANONYMOUS: c_int = 0x22;
const BUS_FAULT: c_int = 7;
const SEGMENT_FAULT: c_int = 11;

extern "C" {
    fn mmap(at: *mut c_void, bytes: usize, touch: c_int, kind: c_int, file: c_int, offset: i64) -> *mut c_void;
    fn mprotect(at: *mut c_void, bytes: usize, touch: c_int) -> c_int;
    fn write(file: c_int, from: *const c_void, bytes: usize) -> isize;
    fn _exit(status: c_int) -> !;
    #[link_name = "signal"]
    fn signal_handler(signal: c_int, handler: extern "C" fn(c_int)) -> *mut c_void;
}
