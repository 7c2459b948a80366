//! What the process says before a read or write of memory without access ends
//! it: which case was being compared, and how to repeat it.

use std::cell::Cell;
use std::ffi::c_int;
use std::io::Write;
use std::ptr::null_mut;

/// The case that a thread compares.
#[derive(Clone, Copy)]
pub struct Case {
    pub group: &'static str,
    /// What the number is: a seed, or the number of one of all inputs.
    pub source: &'static str,
    pub number: u64,
}

thread_local! {
    // without a first use that would have to make it: the handler reads it
    static CASE: Cell<Option<Case>> = const { Cell::new(None) };
}

/// From here on this thread compares this case.
pub fn begin(case: Case) {
    CASE.set(Some(case));
}

/// libc's record for sigaction, on Linux.
#[repr(C)]
struct Action {
    handler: extern "C" fn(c_int),
    mask: [u64; 16],
    flags: c_int,
    restorer: usize,
}

extern "C" {
    fn sigaction(signal: c_int, action: *const Action, before: *mut Action) -> c_int;
    fn write(file: c_int, text: *const u8, length: usize) -> isize;
    fn _exit(status: c_int) -> !;
}

const SIGSEGV: c_int = 11;

/// The handler runs on the stack that Rust sets aside in each thread for this
/// signal, so that a stack that ran out is told too.
const SA_ONSTACK: c_int = 0x0800_0000;

const STANDARD_OUTPUT: c_int = 1;

/// From here on a fault is told before it ends the process.
pub fn tell() {
    let action = Action { handler: told, mask: [0; 16], flags: SA_ONSTACK, restorer: 0 };
    // SAFETY: the record is libc's, and the handler does nothing but what a
    // handler may do.
    let outcome = unsafe { sigaction(SIGSEGV, &action, null_mut()) };
    assert_eq!(outcome, 0, "a handler can be set");
}

/// What is said of every fault.
const FAULT: &str = "a read or write outside a lent buffer, or a stack that ran out (SIGSEGV)";

/// The handler. It allocates nothing, takes no lock and does not return: the
/// read would only be tried again.
extern "C" fn told(_: c_int) {
    let mut text = [0; 1000];
    let mut rest = &mut text[..];
    let _ = match CASE.get() {
        Some(Case { group, source, number }) => writeln!(
            rest,
            "  repeat: tests/rust/run {number} 1 \"{group}\"\nFAILED: {group}: {source} {number}: {FAULT}"
        ),
        None => writeln!(rest, "FAILED: before the first case: {FAULT}"),
    };
    let unused = rest.len();
    // SAFETY: the text has so many bytes.
    unsafe {
        write(STANDARD_OUTPUT, text.as_ptr(), text.len() - unused);
        _exit(1)
    }
}
