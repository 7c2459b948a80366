//! Inputs of which there are few enough to take every one.

use crate::group::Inputs;
use crate::input::Input;
use crate::session;
use permit_monitor::gen::lattices::{bottomed, chain, relation, sets, topped};
use permit_monitor::gen::plants::{lattice_record, Draft, Layout};
use permit_monitor::gen::record_bytes;
use permit_monitor::lattice::Lattice;
use permit_monitor::{open, queue, Record};

/// A plant whose only lattice is any relation on 1 to 4 levels. Opening answers
/// 0, 7, 8 or 9, since nothing else is wrong.
pub const RELATION_FILES: Inputs = every(RELATIONS, |number| {
    vec![opened(one_lattice(lattice_record(&relation_numbered(number))))]
});

/// The records of the same plants, which 20 refuses where opening would.
pub const RELATION_RECORDS: Inputs =
    every(RELATIONS, |number| vec![stop_on(with_lattice(&relation_numbered(number)))]);

/// All relations on 1 to 4 levels.
const RELATIONS: u64 = 2 + 16 + 512 + 65_536;

/// The relation with this number.
fn relation_numbered(number: u64) -> Lattice {
    let mut bits = number;
    let mut n = 1;
    while bits >= 1 << (n * n) {
        bits -= 1 << (n * n);
        n += 1;
    }
    relation(n, |i, j| (bits >> (i * n + j)) & 1 == 1)
}

/// Every change of one bit of the chain of each size, every number n over each
/// chain, and every value of the zero byte.
pub const LAYOUT_FILES: Inputs =
    every(LAYOUTS, |number| vec![opened(one_lattice(layout_numbered(number)))]);

/// The same in a record, which does not keep the zero byte.
pub const LAYOUT_RECORDS: Inputs = every(LAYOUTS, |number| {
    let bytes = layout_numbered(number);
    let set = |i: usize| u16::from_le_bytes([bytes[2 + 2 * i], bytes[3 + 2 * i]]);
    let lattice = Lattice { n: usize::from(bytes[0]), sets: std::array::from_fn(set) };
    vec![stop_on(with_lattice(&lattice))]
});

const LAYOUTS: u64 = 16 * 3 * 256;

/// A lattice record with this layout.
fn layout_numbered(number: u64) -> [u8; 34] {
    let (change, value) = (number / 256 % 3, (number % 256) as usize);
    let mut record = lattice_record(&chain(1 + (number / 768) as usize));
    match change {
        0 => record[2 + value / 8] ^= 1 << (value % 8),
        1 => record[0] = value as u8,
        _ => record[1] = value as u8,
    }
    record
}

/// The circle of three levels in a file. Every pair of the circle has one join
/// and one meet, so only transitivity refuses it.
pub const CIRCLE_FILES: Inputs = every(CIRCLES, |number| {
    let lattice = circle_numbered(number);
    lattice.map(|l| opened(one_lattice(lattice_record(&l)))).into_iter().collect()
});

/// The same in a record.
pub const CIRCLE_RECORDS: Inputs = every(CIRCLES, |number| {
    circle_numbered(number).map(|l| stop_on(with_lattice(&l))).into_iter().collect()
});

const CIRCLES: u64 = 6 * 14 * 14;

/// The circle with its levels in one of their six orders, and with new bottoms
/// and tops; none where these are more than 16 levels in all.
fn circle_numbered(number: u64) -> Option<Lattice> {
    let orders = [[0, 1, 2], [0, 2, 1], [1, 0, 2], [1, 2, 0], [2, 0, 1], [2, 1, 0]];
    let order = orders[(number % 6) as usize];
    let [bottoms, tops] = [number / 6 % 14, number / 84].map(|count| count as usize);
    let circle = Lattice { n: 3, sets: sets(&[3, 6, 5]) };
    let turned = relation(3, |i, j| circle.at_or_under(order[i], order[j]));
    let n = 3 + bottoms + tops;
    (n <= 16).then(|| topped(&bottomed(&turned, 3 + bottoms), n))
}

/// 01's plant with each byte set to each value.
pub const BYTES: Inputs = every(132 * 256, |number| {
    let mut plant = session::plant();
    plant[(number / 256) as usize] = (number % 256) as u8;
    vec![session::with_plant(plant)]
});

/// The session with a buffer of each length; with its plant, and with its
/// requests, cut and lengthened.
pub const CUTS: Inputs = every(1300, |number| {
    let length = number as usize;
    let whole = session::with_plant(session::plant());
    let mut inputs = vec![Input { buffer: length, ..whole.clone() }];
    if length < 140 {
        let mut plant = whole.plant.clone();
        plant.resize(length, 0);
        inputs.push(Input { plant, ..whole.clone() });
        let mut requests = whole.requests.clone();
        requests.resize(length, 3);
        inputs.push(Input { requests, buffer: length / 5 + 577, ..whole });
    }
    inputs
});

/// The 720 orders in which the six sections can stand.
pub const ORDERS: Inputs = every(720, |number| {
    let plant = Layout::ordered(number as usize).file(&session::draft());
    vec![session::with_plant(plant)]
});

/// Each request of these bytes on 01's monitor, fresh and after some of the
/// session's calls.
pub const REQUESTS: Inputs = every(6u64.pow(5), |number| {
    let byte = |place: u32| ARGUMENTS[(number / 6u64.pow(place) % 6) as usize];
    let request = [byte(0), byte(1), byte(2), byte(3), byte(4)];
    let after = |calls: usize| {
        let mut record = open(&session::plant()).1;
        queue(&mut record, &session::REQUESTS[..calls], &mut vec![0; calls]);
        Input { record: record_bytes(&record), requests: request.to_vec(), ..Input::default() }
    };
    [0, 2, 3, 4, 6].map(after).to_vec()
});

/// All numbers that 01's plant has of skids, tasks, requirements, levels and
/// tanks, those just past them, and the greatest.
const ARGUMENTS: [u8; 6] = [0, 1, 2, 3, 4, 255];

/// So many inputs, by number.
const fn every(count: u64, make: fn(u64) -> Vec<Input>) -> Inputs {
    Inputs::Every { count, make }
}

/// One requirement, group, tank, task and skid over one lattice record.
fn one_lattice(lattice: [u8; 34]) -> Vec<u8> {
    let draft = Draft {
        lattices: vec![lattice],
        requirements: vec![[0, 0]],
        groups: vec![[0, 0]],
        tanks: vec![[0, 0]],
        tasks: vec![[1, 0, 7, 0, 0, 0, 0, 0, 0, 0]],
        skids: vec![[1, 0]],
    };
    Layout::packed().file(&draft)
}

/// A plant file alone.
fn opened(plant: Vec<u8>) -> Input {
    Input { plant, ..Input::default() }
}

/// The fresh monitor of one lattice, and then another lattice in its place.
fn with_lattice(lattice: &Lattice) -> Record {
    let mut record = open(&one_lattice(lattice_record(&chain(1)))).1;
    record.plant.lattice_sizes[0] = lattice.n as u8;
    record.plant.lattice_sets[..16].copy_from_slice(&lattice.sets);
    record
}

/// A stop of skid 0, which test 20 alone can refuse.
fn stop_on(record: Record) -> Input {
    Input { record: record_bytes(&record), requests: vec![2, 0, 0, 0, 0], ..Input::default() }
}
