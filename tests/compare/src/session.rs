//! 01's plant and session, written out from the paper, and the smallest plant of
//! which all rights can be held.

use crate::input::Input;
use permit_monitor::gen::lattices::{chain, sets};
use permit_monitor::gen::plants::{lattice_record, Draft, Layout};
use permit_monitor::lattice::Lattice;

/// "Plant: length 132, offsets 24, 92, 96, 100, 108, 128."
pub fn plant() -> Vec<u8> {
    Layout::packed().file(&draft())
}

/// The records of 01's plant.
pub fn draft() -> Draft {
    let three = Lattice { n: 3, sets: sets(&[7, 6, 4]) };
    let four = Lattice { n: 4, sets: sets(&[15, 10, 12, 8]) };
    Draft {
        lattices: vec![lattice_record(&three), lattice_record(&four)],
        requirements: vec![[0, 0], [1, 0]],
        groups: vec![[0, 0], [1, 0]],
        tanks: vec![[0, 0], [0, 2], [1, 1], [1, 2]],
        tasks: vec![[3, 0, 1, 5, 0, 0, 0, 0, 0, 0], [1, 0, 2, 0, 0, 0, 0, 0, 0, 0]],
        skids: vec![[3, 0], [2, 0]],
    }
}

/// "start 0 0; set 0 0 0 1; set 0 0 1 3; start 0 0; gate 0 0 0; set 0 0 0 2;
/// gate 0 1 0; start 0 1; stop 1; start 1 0".
pub const REQUESTS: [[u8; 5]; 10] = [
    [1, 0, 0, 0, 0],
    [0, 0, 0, 0, 1],
    [0, 0, 0, 1, 3],
    [1, 0, 0, 0, 0],
    [3, 0, 0, 0, 0],
    [0, 0, 0, 0, 2],
    [3, 0, 1, 0, 0],
    [1, 0, 1, 0, 0],
    [2, 1, 0, 0, 0],
    [1, 1, 0, 0, 0],
];

/// The session with this plant file, and a buffer that just fits.
pub fn with_plant(plant: Vec<u8>) -> Input {
    Input { plant, requests: REQUESTS.concat(), buffer: REQUESTS.len() + 577, ..Input::default() }
}

/// One level, eight groups of one tank, one task with every right on every
/// group, and eight skids that may run it.
pub fn all_rights_plant() -> Vec<u8> {
    let draft = Draft {
        lattices: vec![lattice_record(&chain(1))],
        requirements: vec![[0, 0]],
        groups: vec![[0, 0]; 8],
        tanks: (0..8).map(|group| [group, 0]).collect(),
        tasks: vec![[1, 0, 7, 7, 7, 7, 7, 7, 7, 7]],
        skids: vec![[1, 0]; 8],
    };
    Layout::packed().file(&draft)
}
