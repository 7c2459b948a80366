//! The baseline gives what the second implementation gives.

use permit_bench::baseline;
use permit_monitor::gen::records::{damaged, CLAUSES};
use permit_monitor::gen::{
    accepted_file, any_plant_file, batch_case, calls, program_input, random_record, wild_calls,
    Rng, SIZES,
};
use permit_monitor::{batch, call, open, permits, queue, section, Record};

fn open_baseline(file: &[u8]) -> (u8, Record) {
    let mut record = random_record(&mut Rng::new(7));
    let number = baseline::open(&mut record, file);
    (number, record)
}

#[test]
fn opening() {
    let mut rng = Rng::new(1);
    for _ in 0..60_000 {
        let file = any_plant_file(&mut rng);
        assert_eq!(open_baseline(&file), open(&file));
    }
}

/// The second implementation gives the part itself: the same place, where it has
/// a byte.
#[test]
fn sections() {
    let mut rng = Rng::new(8);
    for case in 0..60_000 {
        let file = any_plant_file(&mut rng);
        let kind = case % 7;
        let (begin, length) = baseline::section(&file, kind);
        let part = section(&file, kind);
        assert_eq!(length, part.len());
        assert!(length == 0 || std::ptr::eq(&file[begin], &part[0]));
    }
}

/// A list of sensible or wild requests for a record.
fn some_list(rng: &mut Rng, record: &Record, most: usize) -> Vec<[u8; 5]> {
    let count = rng.below(most);
    match rng.chance(3, 4) {
        true => calls(rng, &record.plant, count),
        false => wild_calls(rng, count),
    }
}

#[test]
fn calls_one_by_one() {
    let mut rng = Rng::new(2);
    for size in SIZES.into_iter().cycle().take(800) {
        let mut record = open(&accepted_file(&mut rng, size)).1;
        let mut other = record;
        for request in some_list(&mut rng, &record, 60) {
            let [kind, a, b, c, d] = request;
            let answer = call(&mut record, kind, [a, b, c, d]);
            assert_eq!((baseline::call(&mut other, request), other), (answer, record));
        }
    }
}

/// Records of any kind, damaged ones among them.
#[test]
fn calls_on_any_record() {
    let mut rng = Rng::new(3);
    for case in 0..40_000 {
        let mut record = match case % 2 {
            0 => random_record(&mut rng),
            _ => damaged(&mut rng, CLAUSES[case / 2 % CLAUSES.len()]),
        };
        let mut other = record;
        let request = wild_calls(&mut rng, 1)[0];
        let [kind, a, b, c, d] = request;
        let answer = call(&mut record, kind, [a, b, c, d]);
        assert_eq!((baseline::call(&mut other, request), other), (answer, record));
    }
}

#[test]
fn queues() {
    let mut rng = Rng::new(4);
    for size in SIZES.into_iter().cycle().take(8_000) {
        let mut record = open(&accepted_file(&mut rng, size)).1;
        let first = some_list(&mut rng, &record, 60);
        queue(&mut record, &first, &mut vec![0; first.len()]);
        let mut other = record;
        let list = some_list(&mut rng, &record, 120);
        let room = permit_monitor::gen::buffer_length(&mut rng, list.len());
        let (mut out, mut other_out) = (vec![201; room], vec![201; room]);
        let number = queue(&mut record, &list, &mut out);
        assert_eq!(baseline::queue(&mut other, &list, &mut other_out), number);
        assert_eq!((other_out, other), (out, record));
    }
}

#[test]
fn batches() {
    let mut rng = Rng::new(5);
    for _ in 0..30_000 {
        let (file, requests, room) = batch_case(&mut rng);
        let (mut out, mut other) = (vec![201; room], vec![201; room]);
        let number = batch(&file, &requests, &mut out);
        assert_eq!(baseline::batch(&file, &requests, &mut other), number);
        assert_eq!(other, out);
    }
}

#[test]
fn programs() {
    let mut rng = Rng::new(6);
    let mut out = Box::new([0; baseline::LONGEST_OUTPUT]);
    for _ in 0..10_000 {
        let input = program_input(&mut rng);
        assert_eq!(baseline::permits(&input, &mut out), permits(&input));
    }
}
