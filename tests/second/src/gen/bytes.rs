//! Flips, cuts and additions of bytes; buffers at their boundaries; whole
//! inputs for the batch call and the program.

use super::broken::{broken, broken_twice};
use super::calls::{calls, wild_calls};
use super::lattices::{random_order, random_relation, top};
use super::plants::{accepted_file, draft, lattice_record, state_length, Layout, Size, SIZES};
use super::rng::Rng;
use crate::batch::HELD;
use crate::opening::{open, HEADER};
use crate::permits::LONGEST_INPUT;

/// The bytes with one to three of them changed, or some cut or added.
pub fn mutated(rng: &mut Rng, bytes: &[u8]) -> Vec<u8> {
    let mut changed = bytes.to_vec();
    for _ in 0..rng.between(1, 3) {
        change(rng, &mut changed);
    }
    changed
}

/// One flip of a bit, one other byte, one step of a byte, a cut or an addition.
fn change(rng: &mut Rng, bytes: &mut Vec<u8>) {
    let length = bytes.len();
    if length == 0 {
        return bytes.push(rng.byte());
    }
    let at = rng.below(length);
    match rng.below(10) {
        0..=2 => bytes[at] ^= 1 << rng.below(8),
        3 | 4 => bytes[at] = rng.byte(),
        5 | 6 => bytes[at] = bytes[at].wrapping_add(rng.pick(&[1, 255])),
        7 => bytes.truncate(length - rng.between(1, length.min(6))),
        8 => bytes.insert(at, rng.byte()),
        _ => {
            let more = rng.between(1, 6);
            bytes.extend(rng.bytes(more));
        }
    }
}

/// A plant file with a lattice that is any order or any relation, so opening
/// accepts it or refuses it with 8 or 9.
pub fn relation_file(rng: &mut Rng) -> Vec<u8> {
    let size = rng.pick(&[Size::Small, Size::Medium, Size::Any]);
    let mut draft = draft(rng, size);
    let l = rng.below(draft.lattices.len());
    let n = usize::from(draft.lattices[l][0]);
    let relation = match rng.chance(4, 5) {
        true => random_order(rng, n),
        false => random_relation(rng, n),
    };
    draft.lattices[l] = lattice_record(&relation);
    Layout::random(rng, &draft).file(&draft)
}

/// Any plant file: accepted, broken in one or two checks, with any relation for
/// a lattice, changed in some bytes, or of any bytes.
pub fn any_plant_file(rng: &mut Rng) -> Vec<u8> {
    let size = rng.pick(&SIZES);
    let number = rng.between(1, 12) as u8;
    let other = rng.between(1, 12) as u8;
    match rng.below(20) {
        0..=6 => accepted_file(rng, size),
        7..=10 => broken(rng, number),
        11 if number != other => broken_twice(rng, number, other),
        12 | 13 => relation_file(rng),
        14..=18 => mutated_file(rng, size),
        _ => {
            let length = rng.below(200);
            rng.bytes(length)
        }
    }
}

/// An accepted file with some bytes changed; mostly it still states its length.
fn mutated_file(rng: &mut Rng, size: Size) -> Vec<u8> {
    let accepted = accepted_file(rng, size);
    let mut file = mutated(rng, &accepted);
    if file.len() >= HEADER && rng.chance(4, 5) {
        state_length(&mut file);
    }
    file
}

/// A buffer length at, just under, just past or far from what is needed.
pub fn buffer_length(rng: &mut Rng, needed: usize) -> usize {
    match rng.below(8) {
        0 => needed.saturating_sub(1),
        1 => rng.below(needed + 1),
        2 => needed + 1,
        3 => needed + rng.below(700),
        _ => needed,
    }
}

/// A plant file, request bytes and a buffer length for the batch call.
pub fn batch_case(rng: &mut Rng) -> (Vec<u8>, Vec<u8>, usize) {
    if rng.chance(1, 50) {
        let (file, list) = fullest_case(rng);
        let length = buffer_length(rng, list.len() + HELD);
        return (file, list.concat(), length);
    }
    let file = any_plant_file(rng);
    let requests = request_bytes(rng, &file, 120);
    let length = buffer_length(rng, requests.len() / 5 + HELD);
    (file, requests, length)
}

/// A plant of the greatest counts and a list after which all 192 rights are
/// held: every task has every right on every group, and every level is a top.
pub fn fullest_case(rng: &mut Rng) -> (Vec<u8>, Vec<[u8; 5]>) {
    let mut full = draft(rng, Size::Maximum);
    while (0..8).any(|group| full.tanks.iter().all(|tank| tank[0] != group)) {
        full = draft(rng, Size::Maximum);
    }
    full.tasks = vec![[255, 0, 7, 7, 7, 7, 7, 7, 7, 7]; 16];
    full.skids = vec![[255, 255]; 8];
    let file = Layout::random(rng, &full).file(&full);
    let plant = open(&file).1.plant;
    let mut list = Vec::new();
    for skid in 0..8 {
        let task = rng.below(16) as u8;
        for d in 0..8 {
            let level = top(&plant.lattice_of_requirement(d)).unwrap_or(0);
            list.push([0, skid, task, d as u8, level as u8]);
        }
        list.push([1, skid, task, 0, 0]);
    }
    (file, list)
}

/// Request bytes for a file: sensible ones where opening accepts it. Sometimes
/// they are no multiple of five.
pub fn request_bytes(rng: &mut Rng, file: &[u8], most: usize) -> Vec<u8> {
    let count = rng.below(most + 1);
    let (number, record) = open(file);
    let list = match number == 0 && rng.chance(9, 10) {
        true => calls(rng, &record.plant, count),
        false => wild_calls(rng, count),
    };
    let mut bytes = list.concat();
    if rng.chance(1, 10) {
        let more = rng.between(1, 4);
        bytes.extend(rng.bytes(more));
    }
    match rng.chance(1, 8) {
        true => mutated(rng, &bytes),
        false => bytes,
    }
}

/// Standard input for the program: a plant file and request bytes, at times cut
/// or at the greatest length.
pub fn program_input(rng: &mut Rng) -> Vec<u8> {
    let mut input = any_plant_file(rng);
    let requests = request_bytes(rng, &input, 60);
    input.extend(requests);
    match rng.below(24) {
        0 => input.truncate(rng.below(25)),
        1 => input.truncate(rng.below(input.len() + 1)),
        2 => input.resize(rng.between(LONGEST_INPUT - 5, LONGEST_INPUT), 2),
        3 => input.resize(rng.between(LONGEST_INPUT + 1, LONGEST_INPUT + 9), 2),
        _ => (),
    }
    input
}
