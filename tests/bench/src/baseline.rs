//! The monitor written for speed: what the times of the proved code are held
//! against.
//!
//! Levels and groups are bit sets; what a test finds out is kept in [`Tables`]
//! and not found out again; nothing is allocated. Where a test made before says
//! that a place lies in an array, it is read without a second test, since the
//! compiler of the proved code leaves no such test either.
//!
//! It is tested against the second implementation (tests/against_second.rs) and
//! has no other claim to be right.

mod calls;
mod intact;
mod items;
mod lattice;
mod lists;
mod opening;
mod program;

pub use calls::call;
pub use lists::{batch, queue};
pub use opening::{open, section};
pub use program::{permits, LONGEST_INPUT, LONGEST_OUTPUT};

use permit_monitor::Plant;

/// Unset, none running, none chosen.
const NONE: u8 = 255;

/// The most items of each kind, in the header's order.
const MOST: [u8; 6] = [8, 8, 8, 64, 16, 8];

/// What the tests of a plant find out and the calls need.
struct Tables {
    /// Bit i of set j of lattice l: level i is at or under level j.
    under: [[u16; 16]; 8],
    /// The number of levels of each requirement; 255 past the count.
    sizes: [u8; 8],
    /// Bit v of set g: a tank of group g stands at level v.
    places: [u16; 8],
    /// That tank's number, at g * 16 + v.
    tank_at: [u8; 128],
}

impl Tables {
    fn empty() -> Tables {
        Tables { under: [[0; 16]; 8], sizes: [255; 8], places: [0; 8], tank_at: [NONE; 128] }
    }
}

/// The counts that a request is held against, apart from the record, so that
/// they are not read again behind each change of it.
#[derive(Clone, Copy)]
struct Counts {
    skids: u8,
    tanks: u8,
    tasks: u8,
    requirements: u8,
}

impl Counts {
    #[inline(always)]
    fn of(plant: &Plant) -> Counts {
        let Plant { skids, tanks, tasks, requirements, .. } = *plant;
        Counts { skids, tanks, tasks, requirements }
    }
}

/// A byte 1 in each of eight places.
const ONES: u64 = 0x0101_0101_0101_0101;
const HIGH_BITS: u64 = 0x80 * ONES;

/// The high bit of each of eight bytes that is not zero.
#[inline(always)]
fn nonzero(bytes: u64) -> u64 {
    (((bytes & !HIGH_BITS) + 0x7f * ONES) | bytes) & HIGH_BITS
}

/// The place of the lowest byte of which a bit is set, and the bits without it.
#[inline(always)]
fn first_byte(high_bits: u64) -> (usize, u64) {
    (high_bits.trailing_zeros() as usize / 8, high_bits & (high_bits - 1))
}

/// The eight bytes of rights of a task, that of group 0 lowest.
#[inline(always)]
fn rights_of(plant: &Plant, task: usize) -> u64 {
    debug_assert!(task < 16);
    // A task under the count is under 16.
    unsafe { plant.task_rights.as_ptr().add(task * 8).cast::<u64>().read_unaligned() }
}
