//! Section: the part of a plant file that one of its six sections fills.

use crate::opening::{begin, end, header_number};

/// "Section (file, kind 0 to 5 in the header's order): the part of the caller's
/// bytes that the section fills. A file failing 1 to 6, or another kind, gives
/// an empty part."
pub fn section(file: &[u8], kind: usize) -> &[u8] {
    if header_number(file) != 0 || kind > 5 {
        return &[];
    }
    &file[begin(file, kind)..end(file, kind)]
}
