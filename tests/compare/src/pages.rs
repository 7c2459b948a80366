//! Memory between two stretches that nobody may read or write.
//!
//! The archives are not compiled to watch their own reads, so the processor has
//! to: a read in such a stretch ends in SIGSEGV.

use std::ffi::{c_int, c_void};
use std::ptr::null_mut;
use std::sync::Mutex;

extern "C" {
    fn mmap(
        address: *mut c_void,
        length: usize,
        access: c_int,
        flags: c_int,
        file: c_int,
        offset: i64,
    ) -> *mut c_void;
    fn mprotect(address: *mut c_void, length: usize, access: c_int) -> c_int;
}

// Linux's numbers for what these two are asked for.
const NO_ACCESS: c_int = 0;
const READ_AND_WRITE: c_int = 1 | 2;
const PRIVATE_WITHOUT_FILE: c_int = 2 | 0x20;
const FAILED: *mut c_void = usize::MAX as *mut c_void;

/// Rooms have a multiple of so many bytes, which is a multiple of every size
/// that a page can have.
const STEP: usize = 1 << 16;

/// Bytes without access on either side: past the farthest section that a plant
/// file can name, which begins at 65,535 and has 255 records of 34 bytes.
const APART: usize = 1 << 20;

/// Rooms that nobody uses. A room is kept for the next lending, since making one
/// takes longer than most comparisons.
static FREE: Mutex<Vec<&'static mut [u8]>> = Mutex::new(Vec::new());

/// A room of at least so many bytes, whose content has no meaning.
pub fn take(least: usize) -> &'static mut [u8] {
    let mut free = FREE.lock().expect("nothing panics while it holds the rooms");
    match free.iter().position(|room| room.len() >= least) {
        Some(at) => free.swap_remove(at),
        None => mapped(least.next_multiple_of(STEP)),
    }
}

/// Gives a room back.
pub fn give_back(room: &'static mut [u8]) {
    FREE.lock().expect("nothing panics while it holds the rooms").push(room);
}

/// A room of so many bytes. It is never unmapped.
fn mapped(length: usize) -> &'static mut [u8] {
    let whole = length + 2 * APART;
    // SAFETY: the memory is fresh, the room is its middle, which becomes
    // readable and writable here, and nothing else refers to it.
    unsafe {
        let begin = mmap(null_mut(), whole, NO_ACCESS, PRIVATE_WITHOUT_FILE, -1, 0);
        assert_ne!(begin, FAILED, "there is memory for what is lent");
        let room = begin.byte_add(APART);
        assert_eq!(mprotect(room, length, READ_AND_WRITE), 0, "the room can be opened");
        std::slice::from_raw_parts_mut(room.cast(), length)
    }
}
