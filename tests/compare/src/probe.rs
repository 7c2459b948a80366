//! One read of a lent buffer or beside it, for the test that a read outside is
//! noticed.

use crate::fault::{self, Case};
use crate::guarded::{Edge, Guarded};

/// The buffer's bytes.
const CONTENT: [u8; 8] = [1, 2, 3, 4, 5, 6, 7, 8];

/// The edge by its name.
pub fn edge(name: &str) -> Option<Edge> {
    match name {
        "start" => Some(Edge::Start),
        "end" => Some(Edge::End),
        _ => None,
    }
}

/// Reads the byte at this place, counted from the start of the buffer, and
/// prints it.
pub fn read(edge: Edge, at: isize) {
    fault::begin(Case { group: "probe", source: "seed", number: 17 });
    let mut buffer = Guarded::holding("buffer", &CONTENT, edge);
    // SAFETY: a place outside the buffer is in the room around it, or is memory
    // without access, of which a read ends the process.
    let byte = unsafe { buffer.pointer().wrapping_offset(at).read_volatile() };
    println!("{byte}");
}
