//! The program permits over the baseline: standard input to standard output.

use std::io::{self, Read, Write};

use permit_bench::baseline::{permits, LONGEST_INPUT, LONGEST_OUTPUT};

/// One byte over the limit is enough to know that the input is long. The buffers
/// are static so that only the pages that are used are ever cleared.
static mut INPUT: [u8; LONGEST_INPUT + 1] = [0; LONGEST_INPUT + 1];
static mut OUTPUT: [u8; LONGEST_OUTPUT] = [0; LONGEST_OUTPUT];

fn main() -> io::Result<()> {
    // There is one thread, and main is entered once.
    let (input, output) = unsafe { (&mut *(&raw mut INPUT), &mut *(&raw mut OUTPUT)) };
    let length = read_all(input)?;
    io::stdout().lock().write_all(permits(&input[..length], output))
}

/// Fills the buffer from standard input, and tells how far.
fn read_all(buffer: &mut [u8]) -> io::Result<usize> {
    let mut stdin = io::stdin().lock();
    let mut length = 0;
    while length < buffer.len() {
        match stdin.read(&mut buffer[length..])? {
            0 => break,
            more => length += more,
        }
    }
    Ok(length)
}
