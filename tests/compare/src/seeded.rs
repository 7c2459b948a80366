//! Inputs made from a seed by the generator of the second implementation.

use crate::archives::RECORD;
use crate::input::Input;
use permit_monitor::batch::HELD;
use permit_monitor::gen::records::CLAUSES;
use permit_monitor::gen::{
    accepted_file, any_plant_file, batch_case, buffer_length, calls, damaged, free_change,
    fullest_case, random_record, reached, record_bytes, wild_calls, Rng, Size, SIZES,
};
use permit_monitor::{open, Record};

/// A batch with every buffer length around the limits: none, for the answers
/// alone, one too short, just long enough, and longer.
pub fn batches(rng: &mut Rng) -> Vec<Input> {
    let (plant, requests, length) = batch_case(rng);
    let n = requests.len() / 5;
    let with = |buffer: usize| Input {
        plant: plant.clone(),
        requests: requests.clone(),
        buffer,
        ..Input::default()
    };
    let limit = n + HELD;
    [0, n, limit - 1, limit, limit + 1, limit + 700, length].map(with).to_vec()
}

/// A plant file, accepted or not.
pub fn files(rng: &mut Rng) -> Vec<Input> {
    vec![Input { plant: any_plant_file(rng), ..Input::default() }]
}

/// The same, and a record of anything to open it into.
pub fn openings(rng: &mut Rng) -> Vec<Input> {
    let plant = any_plant_file(rng);
    let record = match rng.chance(1, 4) {
        true => record_bytes(&random_record(rng)),
        false => rng.bytes(RECORD),
    };
    vec![Input { plant, record, ..Input::default() }]
}

/// An accepted plant and a list of calls.
pub fn lists(rng: &mut Rng) -> Vec<Input> {
    list_for(rng, &SIZES, 60)
}

/// The same for smaller plants, with longer lists.
pub fn long_lists(rng: &mut Rng) -> Vec<Input> {
    list_for(rng, &[Size::Small, Size::Small, Size::Medium], 250)
}

fn list_for(rng: &mut Rng, sizes: &[Size], most: usize) -> Vec<Input> {
    let size = rng.pick(sizes);
    let plant = accepted_file(rng, size);
    let count = rng.between(1, most);
    let requests = calls(rng, &open(&plant).1.plant, count).concat();
    vec![Input { plant, requests, buffer: count, ..Input::default() }]
}

/// A plant and a list after which all 192 rights are held.
pub fn fullest_lists(rng: &mut Rng) -> Vec<Input> {
    let (plant, list) = fullest_case(rng);
    let buffer = list.len();
    vec![Input { plant, requests: list.concat(), buffer, ..Input::default() }]
}

/// A record that breaks a clause of test 20, one input for each clause, with a
/// call of each kind and of an unknown one.
pub fn damaged_records(rng: &mut Rng) -> Vec<Input> {
    let mut inputs = Vec::new();
    for clause in CLAUSES {
        let record = damaged(rng, clause);
        let list = call_of_each_kind(rng);
        inputs.push(on_record(rng, &record, list));
    }
    inputs
}

/// A record of any bytes, or changed in places: test 20 refuses it or not.
pub fn changed_records(rng: &mut Rng) -> Vec<Input> {
    let record = random_record(rng);
    let list = call_of_each_kind(rng);
    vec![on_record(rng, &record, list)]
}

/// A record changed where test 20 does not look, and sensible calls on it.
pub fn freely_changed(rng: &mut Rng) -> Vec<Input> {
    let size = rng.pick(&SIZES);
    let record = reached(rng, size);
    let record = free_change(rng, &record);
    let count = rng.between(1, 30);
    let list = calls(rng, &record.plant, count);
    vec![on_record(rng, &record, list)]
}

/// Queues on opened plants, with buffers around their limit.
pub fn queues(rng: &mut Rng) -> Vec<Input> {
    let input = lists(rng).remove(0);
    let n = input.requests.len() / 5;
    let drawn = buffer_length(rng, n);
    let with = |buffer: usize| Input { buffer, ..input.clone() };
    [0, n - 1, n, n + 1, drawn].map(with).to_vec()
}

/// An accepted plant and wild requests, many of them of unknown kind.
pub fn wild_queues(rng: &mut Rng) -> Vec<Input> {
    let size = rng.pick(&SIZES);
    let plant = accepted_file(rng, size);
    let count = rng.below(80);
    let requests = wild_calls(rng, count).concat();
    let buffer = buffer_length(rng, count);
    vec![Input { plant, requests, buffer, ..Input::default() }]
}

fn on_record(rng: &mut Rng, record: &Record, list: Vec<[u8; 5]>) -> Input {
    let buffer = buffer_length(rng, list.len());
    Input { record: record_bytes(record), requests: list.concat(), buffer, ..Input::default() }
}

/// Set, start, stop, gate and an unknown kind, with small arguments.
fn call_of_each_kind(rng: &mut Rng) -> Vec<[u8; 5]> {
    let kinds = [0, 1, 2, 3, rng.between(4, 255) as u8];
    let mut small = || rng.below(3) as u8;
    kinds.map(|kind| [kind, small(), small(), small(), small()]).to_vec()
}
