//! The plants and lists that both sides are given, the same in every run.

use permit_monitor::gen::{draft, wild_calls, Layout, Rng, Size};
use permit_monitor::monitor::{step, NONE};
use permit_monitor::plant::{GROUPS, SKIDS, TANKS, TASKS};
use permit_monitor::{open, Plant, Record};

pub const SET: u8 = 0;
pub const START: u8 = 1;
pub const STOP: u8 = 2;
pub const GATE: u8 = 3;

/// Parts of a hundred requests that are sets, starts and stops; the rest are
/// gates.
pub struct Mix {
    pub sets: usize,
    pub starts: usize,
    pub stops: usize,
}

/// A working day: levels are set and gates asked, few blends begin and end.
pub const MIXED: Mix = Mix { sets: 34, starts: 7, stops: 5 };

/// Blends begin and end all the time.
pub const START_STOP: Mix = Mix { sets: 10, starts: 42, stops: 42 };

/// The plant of 01's session.
pub fn paper_plant() -> Vec<u8> {
    let mut file = vec![0; 132];
    file[..7].copy_from_slice(&[1, 2, 2, 2, 4, 2, 2]);
    for (kind, offset) in [24, 92, 96, 100, 108, 128].into_iter().enumerate() {
        file[8 + 2 * kind] = offset;
    }
    file[20] = 132;
    put_lattice(&mut file[24..58], &[7, 6, 4]);
    put_lattice(&mut file[58..92], &[15, 10, 12, 8]);
    file[94] = 1;
    file[98] = 1;
    file[100..108].copy_from_slice(&[0, 0, 0, 2, 1, 1, 1, 2]);
    file[108..112].copy_from_slice(&[3, 0, 1, 5]);
    file[118..122].copy_from_slice(&[1, 0, 2, 0]);
    file[128] = 3;
    file[130] = 2;
    file
}

fn put_lattice(record: &mut [u8], sets: &[u8]) {
    record[0] = sets.len() as u8;
    for (i, &set) in sets.iter().enumerate() {
        record[2 + 2 * i] = set;
    }
}

/// 01's session.
pub const PAPER_SESSION: [[u8; 5]; 10] = [
    [START, 0, 0, 0, 0],
    [SET, 0, 0, 0, 1],
    [SET, 0, 0, 1, 3],
    [START, 0, 0, 0, 0],
    [GATE, 0, 0, 0, 0],
    [SET, 0, 0, 0, 2],
    [GATE, 0, 1, 0, 0],
    [START, 0, 1, 0, 0],
    [STOP, 1, 0, 0, 0],
    [START, 1, 0, 0, 0],
];

/// The greatest counts: 8 lattices of 16 levels, 8 requirements, 8 groups, each
/// with a tank, 64 tanks, 16 tasks, 8 skids.
pub fn maximum_plant() -> Vec<u8> {
    let mut rng = Rng::new(41);
    loop {
        let draft = draft(&mut rng, Size::Maximum);
        let file = Layout::packed().file(&draft);
        let plant = open(&file).1.plant;
        if (0..plant.count(GROUPS)).all(|group| plant.tanks_of(group).len() >= 4) {
            return file;
        }
    }
}

/// A list of requests as a plant might make them. The record that they lead to
/// is followed, so that most starts find an idle skid and its levels set, and
/// half of the gates ask for a right that is held.
pub fn list(plant: &[u8], mix: &Mix, count: usize) -> Vec<[u8; 5]> {
    let mut rng = Rng::new(42);
    let mut record = open(plant).1;
    (0..count)
        .map(|_| {
            let request = request(&mut rng, &record, mix);
            let [kind, a, b, c, d] = request;
            step(&mut record, kind, [a, b, c, d]);
            request
        })
        .collect()
}

/// Requests of any bytes.
pub fn wild_list(count: usize) -> Vec<[u8; 5]> {
    wild_calls(&mut Rng::new(43), count)
}

fn request(rng: &mut Rng, record: &Record, mix: &Mix) -> [u8; 5] {
    let part = rng.below(100);
    if part < mix.sets {
        set(rng, &record.plant)
    } else if part < mix.sets + mix.starts {
        start(rng, record)
    } else if part < mix.sets + mix.starts + mix.stops {
        stop(rng, record)
    } else {
        gate(rng, record)
    }
}

/// A level for a requirement that a task of the skid needs.
fn set(rng: &mut Rng, plant: &Plant) -> [u8; 5] {
    let skid = rng.below(plant.count(SKIDS));
    let task = some_task(rng, plant, skid);
    let groups = plant.needed_groups(task);
    let requirement = match groups.is_empty() {
        true => 0,
        false => plant.requirement_of(rng.pick(&groups)),
    };
    let level = rng.below(plant.lattice_of_requirement(requirement).n);
    [SET, skid as u8, task as u8, requirement as u8, level as u8]
}

/// A task that the skid may run, if there is one.
fn some_task(rng: &mut Rng, plant: &Plant, skid: usize) -> usize {
    let may: Vec<usize> = (0..plant.count(TASKS)).filter(|&t| plant.may_run(skid, t)).collect();
    match may.is_empty() {
        true => 0,
        false => rng.pick(&may),
    }
}

/// Mostly an idle skid, with a task whose levels are set if there is one.
fn start(rng: &mut Rng, record: &Record) -> [u8; 5] {
    let skid = some_skid(rng, record, false);
    let ready: Vec<usize> = (0..record.plant.count(TASKS))
        .filter(|&task| record.plant.may_run(skid, task) && is_ready(record, skid, task))
        .collect();
    let task = match ready.is_empty() {
        true => some_task(rng, &record.plant, skid),
        false => rng.pick(&ready),
    };
    [START, skid as u8, task as u8, 0, 0]
}

fn is_ready(record: &Record, skid: usize, task: usize) -> bool {
    let plant = &record.plant;
    let is_set = |&group: &usize| record.level(skid, task, plant.requirement_of(group)) != NONE;
    plant.needed_groups(task).iter().all(is_set)
}

/// Mostly a skid that runs something.
fn stop(rng: &mut Rng, record: &Record) -> [u8; 5] {
    [STOP, some_skid(rng, record, true) as u8, 0, 0, 0]
}

/// Mostly a skid that runs something, or that runs nothing.
fn some_skid(rng: &mut Rng, record: &Record, runs: bool) -> usize {
    let skids = record.plant.count(SKIDS);
    let fitting: Vec<usize> =
        (0..skids).filter(|&skid| (record.running[skid] != NONE) == runs).collect();
    match fitting.is_empty() || rng.chance(1, 8) {
        true => rng.below(skids),
        false => rng.pick(&fitting),
    }
}

/// Every other time a right that is held.
fn gate(rng: &mut Rng, record: &Record) -> [u8; 5] {
    let held = record.held();
    if !held.is_empty() && rng.chance(1, 2) {
        let (skid, tank, right) = rng.pick(&held);
        return [GATE, skid, tank, right, 0];
    }
    let skid = rng.below(record.plant.count(SKIDS));
    let tank = rng.below(record.plant.count(TANKS));
    [GATE, skid as u8, tank as u8, rng.below(3) as u8, 0]
}
