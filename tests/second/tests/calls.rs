//! The four calls, test 20, the queue, the batch and the program, at their
//! boundaries; the record's memory layout.

mod common;

use std::mem::{align_of, offset_of, size_of};

use common::*;
use permit_monitor::gen::records::CLAUSES;
use permit_monitor::gen::{
    damaged, free_change, random_record, reached, record_bytes, record_of_bytes, Rng, SIZES,
};
use permit_monitor::{batch, call, open, permits, queue, test20, Plant, Record};

/// The session's monitor after its fourth request: skid 0 runs task 0.
fn running() -> Record {
    let mut record = open(&session_plant()).1;
    assert_eq!(queue(&mut record, &SESSION[..4], &mut [0; 4]), 0);
    record
}

/// The answer of one request, which must leave a refused record as it was.
fn answer(record: &Record, request: [u8; 5]) -> u8 {
    let mut after = *record;
    let [kind, a, b, c, d] = request;
    let answer = call(&mut after, kind, [a, b, c, d]);
    assert!(answer == 0 || after == *record, "refused request {request:?} changed the record");
    answer
}

#[test]
fn the_memory_layout_of_the_record() {
    let plant = [
        offset_of!(Plant, lattices),
        offset_of!(Plant, skids),
        offset_of!(Plant, lattice_sizes),
        offset_of!(Plant, lattice_sets),
        offset_of!(Plant, requirement_lattice),
        offset_of!(Plant, group_requirement),
        offset_of!(Plant, tank_group),
        offset_of!(Plant, tank_level),
        offset_of!(Plant, task_requirements),
        offset_of!(Plant, task_rights),
        offset_of!(Plant, skid_tasks),
        size_of::<Plant>(),
    ];
    assert_eq!(plant, [0, 5, 6, 14, 270, 278, 286, 350, 414, 430, 558, 574]);
    let record = [
        offset_of!(Record, plant),
        offset_of!(Record, levels),
        offset_of!(Record, running),
        offset_of!(Record, chosen),
        size_of::<Record>(),
        align_of::<Record>(),
    ];
    assert_eq!(record, [0, 574, 1598, 1606, 1670, 2]);
}

#[test]
fn a_record_is_its_bytes() {
    let mut rng = Rng::new(3);
    for _ in 0..50 {
        let bytes = rng.bytes(1670);
        assert_eq!(record_bytes(&record_of_bytes(&bytes)), bytes);
        let record = random_record(&mut rng);
        assert_eq!(record_of_bytes(&record_bytes(&record)), record);
    }
}

#[test]
fn set_answers() {
    let record = running();
    assert_eq!(answer(&record, [SET, 2, 2, 2, 3]), 21);
    assert_eq!(answer(&record, [SET, 1, 2, 2, 3]), 22);
    assert_eq!(answer(&record, [SET, 1, 1, 2, 4]), 23);
    assert_eq!(answer(&record, [SET, 1, 1, 0, 3]), 24);
    assert_eq!(answer(&record, [SET, 1, 1, 1, 4]), 24);
    assert_eq!(answer(&record, [SET, 1, 1, 1, 255]), 24);
    assert_eq!(answer(&record, [SET, 1, 1, 1, 3]), 0);
}

/// "The skid need not be allowed the task. The level alone changes."
#[test]
fn set_changes_the_level_alone() {
    let mut record = running();
    let mut expected = record;
    assert_eq!(call(&mut record, SET, [1, 0, 1, 2]), 0);
    expected.levels[16 * 8 + 1] = 2;
    assert_eq!(record, expected);
}

#[test]
fn start_answers() {
    let record = running();
    assert_eq!(answer(&record, [START, 2, 2, 0, 0]), 21);
    assert_eq!(answer(&record, [START, 1, 2, 0, 0]), 22);
    assert_eq!(answer(&record, [START, 1, 255, 0, 0]), 22);
    assert_eq!(answer(&record, [START, 1, 0, 0, 0]), 25);
    assert_eq!(answer(&record, [START, 0, 0, 0, 0]), 26);
    assert_eq!(answer(&record, [START, 0, 1, 0, 0]), 26);
    assert_eq!(answer(&record, [START, 1, 1, 0, 0]), 27);
}

/// "Then the task runs, those groups get their choice, the skid's other groups
/// 255."
#[test]
fn start_writes_the_whole_row() {
    let mut record = open(&session_plant()).1;
    record.chosen = [7; 64];
    assert_eq!(call(&mut record, SET, [0, 1, 0, 2]), 0);
    let mut expected = record;
    assert_eq!(call(&mut record, START, [0, 1, 9, 9]), 0);
    expected.running[0] = 1;
    expected.chosen[..8].copy_from_slice(&[1, 255, 255, 255, 255, 255, 255, 255]);
    assert_eq!(record, expected);
}

#[test]
fn stop_clears_the_whole_row() {
    let mut record = running();
    record.chosen[8..].fill(7);
    assert_eq!(answer(&record, [STOP, 2, 0, 0, 0]), 21);
    let mut expected = record;
    assert_eq!(call(&mut record, STOP, [1, 9, 9, 9]), 0);
    expected.chosen[8..16].fill(255);
    assert_eq!(record, expected);
    assert_eq!(call(&mut record, STOP, [0, 0, 0, 0]), 0);
    expected.running[0] = 255;
    expected.chosen[..8].fill(255);
    assert_eq!(record, expected);
}

#[test]
fn gate_answers() {
    let record = running();
    assert_eq!(answer(&record, [GATE, 2, 4, 3, 0]), 21);
    assert_eq!(answer(&record, [GATE, 1, 4, 3, 0]), 29);
    assert_eq!(answer(&record, [GATE, 1, 3, 3, 0]), 30);
    assert_eq!(answer(&record, [GATE, 1, 3, 2, 0]), 33);
    assert_eq!(answer(&record, [GATE, 0, 2, 0, 0]), 0);
    assert_eq!(answer(&record, [GATE, 0, 2, 1, 0]), 33);
    assert_eq!(answer(&record, [GATE, 0, 2, 2, 0]), 0);
    assert_eq!(answer(&record, [GATE, 0, 3, 2, 0]), 33);
}

#[test]
fn unknown_kinds_after_test_20() {
    for kind in 4..=255 {
        assert_eq!(answer(&running(), [kind, 0, 0, 0, 0]), 32);
        assert_eq!(answer(&Record::zeros(), [kind, 0, 0, 0, 0]), 20);
    }
}

#[test]
fn test_20_refuses_each_broken_clause() {
    let mut rng = Rng::new(4);
    for _ in 0..60 {
        for clause in CLAUSES {
            let record = damaged(&mut rng, clause);
            assert!(!test20(&record), "{clause:?}");
            let request = rng.bits().to_le_bytes();
            assert_eq!(answer(&record, [0, 1, 2, 3, 4].map(|i| request[i])), 20);
        }
    }
    assert!(!test20(&Record::zeros()));
    assert!(!test20(&record_of_bytes(&[255; 1670])));
}

#[test]
fn test_20_passes_reached_records_and_free_changes() {
    let mut rng = Rng::new(5);
    for _ in 0..60 {
        for size in SIZES {
            let record = reached(&mut rng, size);
            assert!(test20(&record));
            for _ in 0..5 {
                assert!(test20(&free_change(&mut rng, &record)));
            }
        }
    }
}

/// The boundaries of the changing parts, one by one.
#[test]
fn test_20_on_the_changing_parts() {
    let with = |change: &dyn Fn(&mut Record)| {
        let mut record = running();
        change(&mut record);
        test20(&record)
    };
    assert!(with(&|r| r.levels[0] = 2));
    assert!(!with(&|r| r.levels[0] = 3));
    assert!(!with(&|r| r.levels[0] = 254));
    assert!(with(&|r| r.levels[2] = 254));
    assert!(!with(&|r| r.running[1] = 0));
    assert!(!with(&|r| r.running[1] = 2));
    assert!(!with(&|r| r.running[1] = 17));
    assert!(!with(&|r| r.running[1] = 1));
    assert!(with(&|r| (r.running[1], r.chosen[8]) = (1, 1)));
    assert!(with(&|r| r.running[2] = 17));
    assert!(with(&|r| r.chosen[0] = 1));
    assert!(!with(&|r| r.chosen[0] = 2));
    assert!(!with(&|r| r.chosen[0] = 4));
    assert!(!with(&|r| r.chosen[0] = 255));
    assert!(with(&|r| r.chosen[8] = 200));
}

#[test]
fn queue_refusals() {
    let mut record = running();
    let before = record;
    let mut out = [99; 3];
    assert_eq!(queue(&mut record, &SESSION[..4], &mut out), 31);
    assert_eq!(queue(&mut Record::zeros(), &SESSION[..4], &mut out), 20);
    assert_eq!(queue(&mut Record::zeros(), &[], &mut []), 20);
    assert_eq!(queue(&mut record, &[], &mut []), 0);
    assert_eq!((record, out), (before, [99; 3]));
    let list = [[9, 0, 0, 0, 0], [STOP, 9, 0, 0, 0], [GATE, 0, 0, 0, 0]];
    assert_eq!(queue(&mut record, &list, &mut out), 0);
    assert_eq!((record, out), (before, [32, 21, 0]));
}

#[test]
fn batch_refusals_in_their_order() {
    let plant = session_plant();
    let requests = SESSION.concat();
    let mut out = [99; 600];
    assert_eq!(batch(&plant[..131], &requests[..49], &mut out[..0]), 1);
    assert_eq!(batch(&plant, &requests[..49], &mut out[..0]), 34);
    assert_eq!(batch(&plant, &requests, &mut out[..586]), 31);
    assert_eq!(batch(&plant, &[], &mut out[..576]), 31);
    assert_eq!(out, [99; 600]);
    assert_eq!(batch(&plant, &[], &mut out[..577]), 0);
    assert_eq!(out[0], 0);
    assert_eq!(out[1..], [99; 599]);
}

#[test]
fn the_programs_refusals() {
    let printed = |input: &[u8]| String::from_utf8(permits(input)).unwrap();
    let mut input = session_plant();
    assert_eq!(printed(&input[..23]), "plant 1\n");
    assert_eq!(printed(&input[..131]), "plant 1\n");
    assert_eq!(printed(&input), "held 0\n");
    input.push(2);
    assert_eq!(printed(&input), "requests 34\n");
    input[0] = 2;
    assert_eq!(printed(&input), "plant 2\n");
    input[0] = 1;
    input[20] = 23;
    assert_eq!(printed(&input), "plant 1\n");
    input[20] = 132;
    input.resize(65_537, 2);
    assert_eq!(printed(&input), "long\n");
    input.truncate(65_536);
    assert_eq!(printed(&input), "requests 34\n");
    input.truncate(65_532);
    assert_eq!(printed(&input).lines().count(), 13_080 + 1);
}
