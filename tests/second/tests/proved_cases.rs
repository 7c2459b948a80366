//! Document 01's session, its cases P1 to P10 and its mistakes to expect.

mod common;

use common::*;
use permit_monitor::choice::choice;
use permit_monitor::{batch, call, history_answers, history_rights, open, permits, queue, Record};

fn opened(file: &[u8]) -> Record {
    let (number, record) = open(file);
    assert_eq!(number, 0);
    record
}

fn made(record: &mut Record, request: [u8; 5]) -> u8 {
    let [kind, a, b, c, d] = request;
    call(record, kind, [a, b, c, d])
}

#[test]
fn the_program_prints_the_session() {
    let mut input = session_plant();
    input.extend(SESSION.concat());
    assert_eq!(String::from_utf8(permits(&input)).unwrap(), SESSION_LINES);
}

#[test]
fn p1_the_sessions_answers() {
    let mut record = opened(&session_plant());
    let answers: Vec<u8> = SESSION.iter().map(|&request| made(&mut record, request)).collect();
    assert_eq!(answers, SESSION_ANSWERS);
    let mut out = [99; 12];
    assert_eq!(queue(&mut opened(&session_plant()), &SESSION, &mut out), 0);
    assert_eq!(out[..10], SESSION_ANSWERS);
    assert_eq!(out[10..], [99, 99]);
}

#[test]
fn p2_the_sessions_rights() {
    let record = opened(&session_plant());
    let rights = vec![(0, 0, 0), (0, 2, 0), (0, 2, 2)];
    let mut after = record;
    queue(&mut after, &SESSION, &mut [0; 10]);
    assert_eq!(after.held(), rights);
    assert_eq!(history_answers(&record.plant, &SESSION), SESSION_ANSWERS);
    assert_eq!(history_rights(&record.plant, &SESSION), rights);
}

#[test]
fn the_batch_of_the_session() {
    let mut out = [99; 10 + 577];
    assert_eq!(batch(&session_plant(), &SESSION.concat(), &mut out), 0);
    assert_eq!(out[..10], SESSION_ANSWERS);
    assert_eq!(out[10..20], [3, 0, 0, 0, 0, 2, 0, 0, 2, 2]);
    assert!(out[20..].iter().all(|&byte| byte == 99));
}

#[test]
fn p3_to_p8_lattices() {
    let cases: [(&[u16], u8); 6] = [
        (&[1], 0),
        (&[0], 8),
        (&[3, 3], 8),
        (&[3, 6, 4], 8),
        (&[1, 2], 9),
        (&[63, 58, 60, 40, 48, 32], 9),
    ];
    for (sets, number) in cases {
        assert_eq!(open(&plant_with_sets(sets)).0, number, "sets {sets:?}");
    }
}

#[test]
fn p9_no_tank_at_or_under_the_level() {
    let mut record = opened(&session_plant());
    assert_eq!(made(&mut record, [SET, 0, 0, 0, 1]), 0);
    assert_eq!(made(&mut record, [SET, 0, 0, 1, 0]), 0);
    assert_eq!(made(&mut record, [START, 0, 0, 0, 0]), 28);
}

#[test]
fn p10_the_middle_tank() {
    let record = opened(&plant_with_tanks(&[7, 6, 4], &[0, 1, 2]));
    assert_eq!(choice(&record.plant, 0, 1), Some(1));
}

/// "comparing level numbers, though level 1 isn't at or under level 2 in
/// lattice 1"
#[test]
fn mistake_comparing_level_numbers() {
    let record = opened(&plant_with_tanks(&[15, 10, 12, 8], &[1]));
    assert_eq!(choice(&record.plant, 0, 2), None);
    let record = opened(&plant_with_tanks(&[15, 10, 12, 8], &[1, 0]));
    assert_eq!(choice(&record.plant, 0, 2), Some(1));
}

/// "choosing again when a level is set during a task"
#[test]
fn mistake_choosing_again() {
    let mut record = opened(&session_plant());
    for request in [[SET, 0, 0, 0, 1], [SET, 0, 0, 1, 3], [START, 0, 0, 0, 0]] {
        assert_eq!(made(&mut record, request), 0);
    }
    let chosen = record.chosen;
    assert_eq!(made(&mut record, [SET, 0, 0, 0, 2]), 0);
    assert_eq!(record.chosen, chosen);
    assert_eq!(made(&mut record, [GATE, 0, 0, 0, 0]), 0);
    assert_eq!(made(&mut record, [STOP, 0, 0, 0, 0]), 0);
    assert_eq!(made(&mut record, [START, 0, 0, 0, 0]), 0);
    assert_eq!(made(&mut record, [GATE, 0, 0, 0, 0]), 33);
    assert_eq!(made(&mut record, [GATE, 0, 1, 0, 0]), 0);
}

/// "reporting 28 for group 0 before 27 for group 1"
#[test]
fn mistake_28_before_27() {
    let mut file = session_plant();
    file[100..104].copy_from_slice(&[0, 1, 0, 2]);
    let mut record = opened(&file);
    assert_eq!(made(&mut record, [SET, 0, 0, 0, 0]), 0);
    assert_eq!(made(&mut record, [START, 0, 0, 0, 0]), 27);
    assert_eq!(made(&mut record, [SET, 0, 0, 1, 3]), 0);
    assert_eq!(made(&mut record, [START, 0, 0, 0, 0]), 28);
}

/// "using one level for all skids"
#[test]
fn mistake_one_level_for_all_skids() {
    let mut record = opened(&session_plant());
    assert_eq!(made(&mut record, [SET, 0, 1, 0, 2]), 0);
    assert_eq!(made(&mut record, [START, 1, 1, 0, 0]), 27);
    assert_eq!(made(&mut record, [SET, 1, 1, 0, 0]), 0);
    assert_eq!(made(&mut record, [START, 1, 1, 0, 0]), 0);
    assert_eq!(made(&mut record, [START, 0, 1, 0, 0]), 0);
    assert_eq!(record.held(), vec![(0, 1, 1), (1, 0, 1)]);
}

/// "The choice is the nearest tank with the lowest number."
#[test]
fn the_lowest_number_of_two_nearest() {
    let record = opened(&plant_with_tanks(&[15, 10, 12, 8], &[0, 2, 1]));
    assert_eq!(choice(&record.plant, 0, 3), Some(1));
    assert_eq!(choice(&record.plant, 0, 1), Some(2));
    assert_eq!(choice(&record.plant, 0, 0), Some(0));
}
