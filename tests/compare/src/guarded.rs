//! Memory that is lent to the archives: one end of it stands directly at memory
//! without access, beside the other is a row of guard bytes.

use crate::difference::{same, same_bytes, Difference};
use crate::pages;

/// The end of the content at which memory without access begins. A read or
/// write past that end is a fault; whatever is lent is lent at both.
#[derive(Clone, Copy, PartialEq, Eq, Debug)]
pub enum Edge {
    Start,
    End,
}

/// The bytes beside the other end.
const GUARD: [u8; 64] = guard_bytes();

pub struct Guarded {
    name: &'static str,
    room: &'static mut [u8],
    edge: Edge,
    begin: usize,
    length: usize,
}

impl Guarded {
    /// A copy of the content. A record, which has two-byte numbers and an even
    /// length, begins at an even address at either edge.
    pub fn holding(name: &'static str, content: &[u8], edge: Edge) -> Guarded {
        let length = content.len();
        let room = pages::take(length + GUARD.len());
        let begin = match edge {
            Edge::Start => 0,
            Edge::End => room.len() - length,
        };
        room[begin..begin + length].copy_from_slice(content);
        let guarded = Guarded { name, room, edge, begin, length };
        let beside = guarded.beside();
        guarded.room[beside..beside + GUARD.len()].copy_from_slice(&GUARD);
        guarded
    }

    /// Where the guard bytes begin.
    fn beside(&self) -> usize {
        match self.edge {
            Edge::Start => self.length,
            Edge::End => self.begin - GUARD.len(),
        }
    }

    pub fn edge(&self) -> Edge {
        self.edge
    }

    /// Where the content begins, for a callee that may write it.
    pub fn pointer(&mut self) -> *mut u8 {
        self.room[self.begin..].as_mut_ptr()
    }

    pub fn content(&self) -> &[u8] {
        &self.room[self.begin..self.begin + self.length]
    }

    /// No guard byte was written.
    pub fn guards_hold(&self) -> Result<(), Difference> {
        let beside = self.beside();
        let what = |at| {
            let from_content = (beside + at) as i64 - self.begin as i64;
            format!("byte {from_content} counted from the {}", self.name)
        };
        same_bytes(what, &GUARD, &self.room[beside..beside + GUARD.len()])
    }

    /// Neither the content nor a guard byte was written.
    pub fn untouched(&self, content: &[u8]) -> Result<(), Difference> {
        self.guards_hold()?;
        same(|| format!("the {} after the call", self.name), content, self.content())
    }
}

impl Drop for Guarded {
    fn drop(&mut self) {
        pages::give_back(std::mem::take(&mut self.room));
    }
}

/// No two neighbours are alike, so a copy to the wrong place shows.
const fn guard_bytes() -> [u8; 64] {
    let mut bytes = [165u8; 64];
    let mut at = 1;
    while at < 64 {
        bytes[at] = bytes[at - 1].wrapping_add(37);
        at += 1;
    }
    bytes
}

#[cfg(test)]
mod tests {
    use super::*;

    const CONTENT: [u8; 4] = [1, 2, 3, 4];

    /// Whether everything holds after a byte is written, counted from the start
    /// of the content.
    fn holds_after_write(edge: Edge, at: isize) -> [bool; 2] {
        let mut guarded = Guarded::holding("buffer", &CONTENT, edge);
        // SAFETY: the content and the guard bytes are in the room.
        unsafe { *guarded.pointer().wrapping_offset(at) ^= 255 };
        [guarded.guards_hold().is_ok(), guarded.untouched(&CONTENT).is_ok()]
    }

    #[test]
    fn a_write_to_the_content_shows_only_where_it_must_stay() {
        for edge in [Edge::Start, Edge::End] {
            assert_eq!(holds_after_write(edge, 0), [true, false]);
            assert_eq!(holds_after_write(edge, 3), [true, false]);
        }
    }

    #[test]
    fn a_write_beside_the_content_shows() {
        assert_eq!(holds_after_write(Edge::Start, 4), [false, false]);
        assert_eq!(holds_after_write(Edge::Start, 67), [false, false]);
        assert_eq!(holds_after_write(Edge::End, -1), [false, false]);
        assert_eq!(holds_after_write(Edge::End, -64), [false, false]);
    }
}
