//! Whole lists of calls: the monitor gives what the history gives, striking out
//! other skids changes nothing for a skid, and the generator reaches every
//! answer.

use permit_monitor::choice::nearest_tanks;
use permit_monitor::gen::{
    accepted_file, batch_case, calls, fullest_case, program_input, Rng, Size, SIZES,
};
use permit_monitor::plant::{GROUPS, SKIDS, TANKS};
use permit_monitor::{
    batch, call, history_answers, history_rights, open, permits, queue, test20, Record,
};

/// A fresh monitor and a list for it.
fn fresh_and_list(rng: &mut Rng, size: Size) -> (Record, Vec<[u8; 5]>) {
    let (number, record) = open(&accepted_file(rng, size));
    assert_eq!(number, 0);
    let count = rng.below(120);
    let list = calls(rng, &record.plant, count);
    (record, list)
}

/// The answers and the record that the queue leaves.
fn queued(fresh: &Record, list: &[[u8; 5]]) -> (Vec<u8>, Record) {
    let mut record = *fresh;
    let mut answers = vec![0; list.len()];
    assert_eq!(queue(&mut record, list, &mut answers), 0);
    (answers, record)
}

#[test]
fn the_monitor_gives_what_the_history_gives() {
    let mut rng = Rng::new(10);
    for _ in 0..1000 {
        for size in SIZES {
            let (fresh, list) = fresh_and_list(&mut rng, size);
            let (answers, record) = queued(&fresh, &list);
            assert_eq!(answers, history_answers(&fresh.plant, &list));
            assert_eq!(record.held(), history_rights(&fresh.plant, &list));
        }
    }
}

/// "After the list, a skid holds a right on a tank, and a gate call for it would
/// return 0, exactly when that history has" it.
#[test]
fn a_gate_call_opens_exactly_for_the_rights_of_the_history() {
    let mut rng = Rng::new(11);
    for size in [Size::Small, Size::Medium].into_iter().cycle().take(60) {
        let (fresh, list) = fresh_and_list(&mut rng, size);
        let (_, mut record) = queued(&fresh, &list);
        let rights = history_rights(&fresh.plant, &list);
        for skid in 0..fresh.plant.skids {
            for tank in 0..fresh.plant.tanks {
                for right in 0..3 {
                    let open = call(&mut record, 3, [skid, tank, right, 0]) == 0;
                    assert_eq!(open, rights.contains(&(skid, tank, right)));
                }
            }
        }
    }
}

/// "Striking out every call that names another skid leaves this skid's answers,
/// in their order, and its rights as they were."
#[test]
fn striking_out_other_skids_changes_nothing() {
    let mut rng = Rng::new(12);
    for size in SIZES.into_iter().cycle().take(400) {
        let (fresh, list) = fresh_and_list(&mut rng, size);
        let (answers, record) = queued(&fresh, &list);
        let skid = rng.below(fresh.plant.count(SKIDS)) as u8;
        let own: Vec<usize> = (0..list.len()).filter(|&i| list[i][1] == skid).collect();
        let own_list: Vec<[u8; 5]> = own.iter().map(|&i| list[i]).collect();
        let (own_answers, own_record) = queued(&fresh, &own_list);
        assert_eq!(own_answers, own.iter().map(|&i| answers[i]).collect::<Vec<u8>>());
        let rights_of = |record: &Record| {
            record.held().into_iter().filter(|right| right.0 == skid).collect::<Vec<_>>()
        };
        assert_eq!(rights_of(&own_record), rights_of(&record));
    }
}

/// Test 20 passes after every call, so the queue may test once; and the calls
/// one by one give what the queue gives.
#[test]
fn calls_one_by_one_are_the_queue() {
    let mut rng = Rng::new(13);
    for size in SIZES.into_iter().cycle().take(120) {
        let (fresh, list) = fresh_and_list(&mut rng, size);
        let (answers, last) = queued(&fresh, &list);
        let mut record = fresh;
        for (&[kind, a, b, c, d], answer) in list.iter().zip(answers) {
            let before = record;
            assert_eq!(call(&mut record, kind, [a, b, c, d]), answer);
            assert!(answer == 0 || record == before);
            assert!(test20(&record));
        }
        assert_eq!(record, last);
    }
}

/// The batch gives the queue's answers and the rights, and writes no more.
#[test]
fn batches_are_openings_and_queues() {
    let mut rng = Rng::new(14);
    for _ in 0..3000 {
        let (file, requests, length) = batch_case(&mut rng);
        let mut out = vec![201; length];
        let number = batch(&file, &requests, &mut out);
        let (opening, fresh) = open(&file);
        if number != 0 {
            assert!(out.iter().all(|&byte| byte == 201));
            assert!(opening == 0 || number == opening);
            continue;
        }
        let list: Vec<[u8; 5]> = requests.chunks(5).map(|five| five.try_into().unwrap()).collect();
        let (answers, record) = queued(&fresh, &list);
        let mut expected = answers;
        expected.push(record.held().len() as u8);
        expected.extend(record.held().iter().flat_map(|&(skid, tank, r)| [skid, tank, r]));
        expected.resize(length, 201);
        assert_eq!(out, expected);
    }
}

/// "So at most 192 rights are held in all (8 × 8 × 3)."
#[test]
fn all_192_rights_can_be_held() {
    let mut rng = Rng::new(18);
    for _ in 0..20 {
        let (file, list) = fullest_case(&mut rng);
        let mut out = vec![201; list.len() + 577];
        assert_eq!(batch(&file, &list.concat(), &mut out), 0);
        assert!(out[..list.len()].iter().all(|&answer| answer == 0));
        assert_eq!(out[list.len()], 192);
        assert!(out[list.len() + 1..].chunks(3).is_sorted());
        assert_eq!(out[out.len() - 3], 7);
    }
}

/// The program always prints whole lines.
#[test]
fn the_program_prints_lines() {
    let mut rng = Rng::new(15);
    for _ in 0..1000 {
        let printed = String::from_utf8(permits(&program_input(&mut rng))).unwrap();
        assert!(printed.ends_with('\n') && !printed.contains("\n\n"));
    }
}

#[test]
fn every_answer_occurs_often() {
    let mut rng = Rng::new(16);
    let mut seen = [0; 256];
    for size in SIZES.into_iter().cycle().take(800) {
        let (fresh, list) = fresh_and_list(&mut rng, size);
        for answer in queued(&fresh, &list).0 {
            seen[usize::from(answer)] += 1;
        }
    }
    let answers: Vec<usize> = (0..256).filter(|&answer| seen[answer] > 0).collect();
    assert_eq!(answers, [0, 21, 22, 23, 24, 25, 26, 27, 28, 29, 30, 32, 33]);
    assert!(answers.iter().all(|&answer| seen[answer] > 200), "{seen:?}");
}

/// Choices are not trivial: in many groups two tanks are nearest for one level,
/// and the greatest plants are reached with many rights held.
#[test]
fn plants_have_choices_to_make() {
    let mut rng = Rng::new(17);
    let [mut ties, mut most_held, mut empty] = [0; 3];
    for size in SIZES.into_iter().cycle().take(400) {
        let (fresh, list) = fresh_and_list(&mut rng, size);
        let plant = &fresh.plant;
        for group in 0..plant.count(GROUPS) {
            let levels = plant.lattice_of_group(group).n;
            ties += usize::from((0..levels).any(|v| nearest_tanks(plant, group, v).len() > 1));
            empty += usize::from(plant.tanks_of(group).is_empty());
        }
        most_held = most_held.max(queued(&fresh, &list).1.held().len());
        assert!(plant.count(TANKS) > 0);
    }
    assert!(ties > 300 && empty > 50 && most_held > 30, "{ties} {empty} {most_held}");
}
