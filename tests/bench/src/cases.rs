//! The measured calls: a function of each side on the same input.

use std::hint::black_box;

use permit_monitor::monitor::NONE;
use permit_monitor::Record;

use crate::inputs::{list, GATE, MIXED, SET, START};
use crate::{baseline, rattle};

/// What makes request records for a plant file.
pub type Requests = fn(&[u8]) -> Vec<[u8; 5]>;

/// One measured call.
pub struct Case {
    pub name: String,
    /// The functions that do the work, by the names that a profiler sees.
    pub functions: [&'static str; 2],
    /// The call on both sides. Its input is made here and not before, so that a
    /// profiler that wants one case waits for no other's.
    pub sides: Box<dyn Fn() -> Sides>,
}

/// The same call of each side.
pub struct Sides {
    pub rattle: Box<dyn FnMut()>,
    pub baseline: Box<dyn FnMut()>,
}

pub fn opening(plant: &str, file: &[u8]) -> Case {
    let file = file.to_vec();
    let sides = move || {
        let (file, other_file) = (file.clone(), file.clone());
        let (mut record, mut other) = (Record::zeros(), Record::zeros());
        Sides {
            rattle: Box::new(move || {
                black_box(rattle::open(&mut record, black_box(&file)));
            }),
            baseline: Box::new(move || {
                black_box(baseline::open(&mut other, black_box(&other_file)));
            }),
        }
    };
    Case {
        name: format!("{plant}, opening"),
        functions: ["permits_open", "baseline_open"],
        sides: Box::new(sides),
    }
}

/// The section of the tanks; the others take the same work.
pub fn section(plant: &str, file: &[u8]) -> Case {
    const TANKS: usize = 3;
    let file = file.to_vec();
    let sides = move || {
        let (file, other_file) = (file.clone(), file.clone());
        Sides {
            rattle: Box::new(move || {
                black_box(rattle::section(black_box(&file), TANKS));
            }),
            baseline: Box::new(move || {
                black_box(baseline::section(black_box(&other_file), TANKS));
            }),
        }
    };
    Case {
        name: format!("{plant}, section"),
        functions: ["permits_section", "baseline_section"],
        sides: Box::new(sides),
    }
}

pub fn batch(plant: &str, name: &str, file: &[u8], requests: Requests) -> Case {
    let file = file.to_vec();
    let sides = move || {
        let (file, other_file) = (file.clone(), file.clone());
        let requests = requests(&file).concat();
        let other_requests = requests.clone();
        let mut out = vec![0; requests.len() / 5 + 577];
        let mut other_out = out.clone();
        Sides {
            rattle: Box::new(move || {
                black_box(rattle::batch(black_box(&file), black_box(&requests), &mut out));
            }),
            baseline: Box::new(move || {
                let file = black_box(&other_file);
                black_box(baseline::batch(file, black_box(&other_requests), &mut other_out));
            }),
        }
    };
    Case {
        name: format!("{plant}, batch, {name}"),
        functions: ["permits_batch", "baseline_batch"],
        sides: Box::new(sides),
    }
}

pub fn queue(plant: &str, name: &str, file: &[u8], requests: Requests) -> Case {
    let file = file.to_vec();
    let sides = move || {
        let requests = requests(&file);
        let other_requests = requests.clone();
        let mut record = permit_monitor::open(&file).1;
        let mut other = record;
        let mut out = vec![0; requests.len()];
        let mut other_out = out.clone();
        Sides {
            rattle: Box::new(move || {
                black_box(rattle::queue(&mut record, black_box(&requests), &mut out));
            }),
            baseline: Box::new(move || {
                let requests = black_box(&other_requests);
                black_box(baseline::queue(&mut other, requests, &mut other_out));
            }),
        }
    };
    Case {
        name: format!("{plant}, queue, {name}"),
        functions: ["permits_queue", "baseline_queue"],
        sides: Box::new(sides),
    }
}

/// A set, a start and a gate, each accepted, on a record on which a list was
/// made.
pub fn console_cases(plant: &str, file: &[u8]) -> [Case; 3] {
    let mut record = permit_monitor::open(file).1;
    let past = list(file, &MIXED, 400);
    permit_monitor::queue(&mut record, &past, &mut vec![0; past.len()]);
    let (skid, tank, right) = record.held()[0];
    let task = record.running[usize::from(skid)];
    let requirement =
        record.plant.group_requirement[usize::from(record.plant.tank_group[usize::from(tank)])];
    let mut idle = record;
    make_idle(&mut idle, skid);
    let set = [SET, skid, task, requirement, 0];
    let start = [START, skid, task, 0, 0];
    let gate = [GATE, skid, tank, right, 0];
    [
        console_case(format!("{plant}, console, set"), record, set, |_| ()),
        console_case(format!("{plant}, console, start"), idle, start, move |record| {
            make_idle(record, skid)
        }),
        console_case(format!("{plant}, console, gate"), record, gate, |_| ()),
    ]
}

/// What a stop does, without a call.
fn make_idle(record: &mut Record, skid: u8) {
    let s = usize::from(skid);
    record.running[s] = NONE;
    record.chosen[s * 8..s * 8 + 8].fill(NONE);
}

/// A request made again and again; `restore` takes its effect back.
fn console_case(
    name: String,
    record: Record,
    request: [u8; 5],
    restore: impl Fn(&mut Record) + Copy + 'static,
) -> Case {
    let sides = move || {
        let (mut record, mut other) = (record, record);
        Sides {
            rattle: Box::new(move || {
                assert_eq!(rattle::call(&mut record, black_box(request)), 0);
                restore(&mut record);
            }),
            baseline: Box::new(move || {
                assert_eq!(baseline::call(&mut other, black_box(request)), 0);
                restore(&mut other);
            }),
        }
    };
    Case { name, functions: ["permits_call", "baseline_call"], sides: Box::new(sides) }
}
