//! The program permits: standard input to standard output.

use std::io::{self, Read, Write};

use permit_monitor::permits::{permits, LONGEST_INPUT};

fn main() -> io::Result<()> {
    // One byte over the limit is enough to know that the input is long.
    let mut input = Vec::new();
    io::stdin().lock().take(LONGEST_INPUT as u64 + 1).read_to_end(&mut input)?;
    io::stdout().lock().write_all(&permits(&input))
}
