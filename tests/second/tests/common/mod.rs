//! The plant and the requests of document 01's session.

#![allow(dead_code)]

/// "Plant: length 132, offsets 24, 92, 96, 100, 108, 128. [...] Unmentioned
/// bytes are zero."
pub fn session_plant() -> Vec<u8> {
    let mut file = vec![0; 132];
    file[..7].copy_from_slice(&[1, 2, 2, 2, 4, 2, 2]);
    for (kind, offset) in [24u8, 92, 96, 100, 108, 128].into_iter().enumerate() {
        file[8 + 2 * kind] = offset;
    }
    file[20] = 132;
    put_lattice(&mut file, 24, 3, &[7, 6, 4]);
    put_lattice(&mut file, 58, 4, &[15, 10, 12, 8]);
    file[92..96].copy_from_slice(&[0, 0, 1, 0]);
    file[96..100].copy_from_slice(&[0, 0, 1, 0]);
    file[100..108].copy_from_slice(&[0, 0, 0, 2, 1, 1, 1, 2]);
    file[108..112].copy_from_slice(&[3, 0, 1, 5]);
    file[118..122].copy_from_slice(&[1, 0, 2, 0]);
    file[128] = 3;
    file[130] = 2;
    file
}

/// A lattice record: n and its first sets, the rest zero.
pub fn put_lattice(file: &mut [u8], at: usize, n: u8, sets: &[u16]) {
    file[at..at + 34].fill(0);
    file[at] = n;
    for (i, set) in sets.iter().enumerate() {
        file[at + 2 + 2 * i..at + 4 + 2 * i].copy_from_slice(&set.to_le_bytes());
    }
}

pub const SET: u8 = 0;
pub const START: u8 = 1;
pub const STOP: u8 = 2;
pub const GATE: u8 = 3;

/// The session's ten requests.
pub const SESSION: [[u8; 5]; 10] = [
    [START, 0, 0, 0, 0],
    [SET, 0, 0, 0, 1],
    [SET, 0, 0, 1, 3],
    [START, 0, 0, 0, 0],
    [GATE, 0, 0, 0, 0],
    [SET, 0, 0, 0, 2],
    [GATE, 0, 1, 0, 0],
    [START, 0, 1, 0, 0],
    [STOP, 1, 0, 0, 0],
    [START, 1, 0, 0, 0],
];

pub const SESSION_ANSWERS: [u8; 10] = [27, 0, 0, 0, 0, 0, 33, 26, 0, 25];

pub const SESSION_LINES: &str = "1 27\n2 0\n3 0\n4 0\n5 0\n6 0\n7 33\n8 26\n9 0\n10 25\n\
                                 held 3\n0 0 0\n0 2 0\n0 2 2\n";

/// A plant with one lattice of these sets, one requirement, one group, one tank
/// at level 0, one task that draws from the group, and one skid that may run it.
pub fn plant_with_sets(sets: &[u16]) -> Vec<u8> {
    let mut file = vec![0; 76];
    file[..7].copy_from_slice(&[1, 1, 1, 1, 1, 1, 1]);
    for (kind, offset) in [24u8, 58, 60, 62, 64, 74].into_iter().enumerate() {
        file[8 + 2 * kind] = offset;
    }
    file[20] = 76;
    put_lattice(&mut file, 24, sets.len() as u8, sets);
    file[64] = 1;
    file[66] = 1;
    file[74] = 1;
    file
}

/// The plant of [`plant_with_sets`] with tanks at these levels.
pub fn plant_with_tanks(sets: &[u16], levels: &[u8]) -> Vec<u8> {
    let mut file = plant_with_sets(sets);
    file[4] = levels.len() as u8;
    let begin = file.len();
    file[14] = begin as u8;
    for &level in levels {
        file.extend([0, level]);
    }
    file[20] = file.len() as u8;
    file
}
