//! The two sides that are measured do the same work: on the measured inputs they
//! give the same answers, rights and records.

use permit_bench::inputs::{list, maximum_plant, paper_plant, wild_list, MIXED, START_STOP};
use permit_bench::{baseline, rattle};
use permit_monitor::Record;

const REQUESTS: usize = 10_000;

fn plants() -> [Vec<u8>; 2] {
    [paper_plant(), maximum_plant()]
}

fn lists(plant: &[u8]) -> [Vec<[u8; 5]>; 3] {
    [list(plant, &MIXED, REQUESTS), list(plant, &START_STOP, REQUESTS), wild_list(REQUESTS)]
}

#[test]
fn batches() {
    for plant in plants() {
        for list in lists(&plant) {
            let requests = list.concat();
            let (mut out, mut other) = (vec![201; REQUESTS + 577], vec![201; REQUESTS + 577]);
            assert_eq!(rattle::batch(&plant, &requests, &mut out), 0);
            assert_eq!(baseline::batch(&plant, &requests, &mut other), 0);
            assert_eq!(out, other);
        }
    }
}

#[test]
fn sections() {
    for plant in plants() {
        for kind in 0..7 {
            assert_eq!(rattle::section(&plant, kind), baseline::section(&plant, kind));
        }
    }
}

#[test]
fn queues_and_calls() {
    for plant in plants() {
        for list in lists(&plant) {
            let (mut record, mut other) = (Record::zeros(), Record::zeros());
            assert_eq!(rattle::open(&mut record, &plant), 0);
            assert_eq!(baseline::open(&mut other, &plant), 0);
            assert_eq!(record, other);
            let (mut out, mut other_out) = (vec![201; REQUESTS], vec![201; REQUESTS]);
            assert_eq!(rattle::queue(&mut record, &list, &mut out), 0);
            assert_eq!(baseline::queue(&mut other, &list, &mut other_out), 0);
            assert_eq!((&out, record), (&other_out, other));
            for &request in &list[..200] {
                let answer = rattle::call(&mut record, request);
                assert_eq!((baseline::call(&mut other, request), other), (answer, record));
            }
        }
    }
}
