//! Each opening number at its boundary, in the session's plant; sections.

mod common;

use common::*;
use permit_monitor::gen::lattices::sets;
use permit_monitor::gen::{accepted_file, broken, broken_twice, draft, Layout, Rng, Size, SIZES};
use permit_monitor::lattice::Lattice;
use permit_monitor::{open, section, test20, Record};

/// Opens the session's plant with some bytes changed.
fn number_with(changes: &[(usize, u8)]) -> u8 {
    let mut file = session_plant();
    for &(at, byte) in changes {
        file[at] = byte;
    }
    let (number, record) = open(&file);
    assert_eq!(record == Record::zeros(), number != 0);
    assert_eq!(test20(&record), number == 0);
    number
}

#[test]
fn the_sessions_plant_is_accepted_and_fresh() {
    let (number, record) = open(&session_plant());
    assert_eq!(number, 0);
    assert!(record.levels.iter().all(|&level| level == 255));
    assert!(record.running.iter().all(|&task| task == 255));
    assert!(record.chosen.iter().all(|&tank| tank == 255));
    assert_eq!(record.plant.counts(), [2, 2, 2, 4, 2, 2]);
    assert_eq!(record.plant.lattice_sizes, [3, 4, 0, 0, 0, 0, 0, 0]);
    assert_eq!(record.plant.lattice_sets[..4], [7, 6, 4, 0]);
    assert_eq!(record.plant.lattice_sets[16..21], [15, 10, 12, 8, 0]);
    assert_eq!(record.plant.task_rights[..10], [1, 5, 0, 0, 0, 0, 0, 0, 2, 0]);
    assert_eq!(record.plant.skid_tasks[..3], [3, 2, 0]);
}

#[test]
fn number_1() {
    assert_eq!(open(&[]).0, 1);
    assert_eq!(open(&[0; 23]).0, 1);
    let mut header = [0; 24];
    header[20] = 24;
    assert_eq!(open(&header).0, 2);
    assert_eq!(number_with(&[(20, 131)]), 1);
    assert_eq!(number_with(&[(21, 1)]), 1);
    let mut file = session_plant();
    file.resize(4096, 255);
    file[20..22].copy_from_slice(&[0, 16]);
    assert_eq!(open(&file).0, 0);
    file.push(255);
    file[20..22].copy_from_slice(&[1, 16]);
    assert_eq!(open(&file).0, 1);
}

#[test]
fn numbers_2_to_4() {
    for edition in [0, 2, 255] {
        assert_eq!(number_with(&[(0, edition)]), 2);
    }
    for (kind, most) in [8, 8, 8, 64, 16, 8].into_iter().enumerate() {
        assert_eq!(number_with(&[(1 + kind, 0)]), 3);
        assert_eq!(number_with(&[(1 + kind, most + 1)]), 3);
        assert_ne!(number_with(&[(1 + kind, most)]), 3);
    }
    for zero in [7, 22, 23] {
        assert_eq!(number_with(&[(zero, 1)]), 4);
    }
}

#[test]
fn numbers_5_and_6() {
    assert_eq!(number_with(&[(8, 23)]), 5);
    assert_eq!(number_with(&[(18, 129)]), 5);
    assert_eq!(number_with(&[(19, 255)]), 5);
    assert_eq!(number_with(&[(18, 127)]), 6);
    assert_eq!(number_with(&[(10, 91)]), 6);
    assert_eq!(number_with(&[(12, 92)]), 6);
}

#[test]
fn number_7() {
    for n in [0, 17, 255] {
        assert_eq!(number_with(&[(24, n)]), 7);
    }
    assert_eq!(number_with(&[(25, 1)]), 7);
    assert_eq!(number_with(&[(24 + 2 + 6, 1)]), 7);
    assert_eq!(number_with(&[(26, 15)]), 7);
    assert_eq!(number_with(&[(57, 128)]), 7);
}

#[test]
fn each_check_is_over_the_whole_file_before_the_next() {
    let mut file = session_plant();
    put_lattice(&mut file, 24, 3, &[1, 2, 4]);
    assert_eq!(open(&file).0, 9);
    put_lattice(&mut file, 58, 2, &[3, 3]);
    assert_eq!(open(&file).0, 8);
    file[59] = 1;
    assert_eq!(open(&file).0, 7);
}

/// A circle of three levels has every join and meet and still is no order.
#[test]
fn a_circle_is_no_order() {
    let (number, record) = open(&plant_with_sets(&[3, 6, 5]));
    assert_eq!((number, record), (8, Record::zeros()));
    let circle = Lattice { n: 3, sets: sets(&[3, 6, 5]) };
    assert!(circle.has_joins_and_meets() && !circle.is_order());
}

#[test]
fn number_10() {
    let cases = [
        (92, 2),
        (93, 1),
        (96, 2),
        (97, 1),
        (100, 2),
        (101, 3),
        (107, 4),
        (108, 7),
        (109, 1),
        (110, 9),
        (112, 1),
        (117, 1),
        (128, 7),
        (131, 128),
    ];
    for (at, byte) in cases {
        assert_eq!(number_with(&[(at, byte)]), 10, "byte {at}");
    }
}

#[test]
fn numbers_11_and_12() {
    assert_eq!(number_with(&[(103, 0)]), 11);
    assert_eq!(number_with(&[(108, 1)]), 12);
    assert_eq!(number_with(&[(121, 1)]), 12);
    assert_eq!(number_with(&[(103, 0), (108, 1)]), 11);
}

#[test]
fn sections_are_parts_of_the_callers_bytes() {
    let file = session_plant();
    let ends = [24, 92, 96, 100, 108, 128, 132];
    for kind in 0..6 {
        let part = section(&file, kind);
        assert_eq!(part, &file[ends[kind]..ends[kind + 1]]);
        assert_eq!(part.as_ptr(), file[ends[kind]..].as_ptr());
    }
    assert!(section(&file, 6).is_empty());
    assert!(section(&file, usize::MAX).is_empty());
    assert!(section(&file[..131], 0).is_empty());
}

/// A section is there where 1 to 6 hold, whatever the records say.
#[test]
fn sections_need_no_later_check() {
    let mut file = session_plant();
    file[25] = 1;
    assert_eq!(open(&file).0, 7);
    assert_eq!(section(&file, 0).len(), 68);
    file[10] = 91;
    assert!(section(&file, 0).is_empty());
}

#[test]
fn generated_files_get_the_number_they_were_made_for() {
    let mut rng = Rng::new(1);
    for _ in 0..300 {
        for size in SIZES {
            assert_eq!(open(&accepted_file(&mut rng, size)).0, 0);
        }
        for number in 1..=12 {
            assert_eq!(open(&broken(&mut rng, number)).0, number);
        }
    }
}

/// "Sections may stand in any order".
#[test]
fn every_order_of_the_sections_gives_the_same_plant() {
    let mut rng = Rng::new(6);
    let draft = draft(&mut rng, Size::Medium);
    let packed = open(&Layout::packed().file(&draft));
    assert_eq!(packed.0, 0);
    let mut files: Vec<Vec<u8>> = (0..720).map(|i| Layout::ordered(i).file(&draft)).collect();
    assert!(files.iter().all(|file| open(file) == packed));
    files.sort();
    files.dedup();
    assert_eq!(files.len(), 720);
}

#[test]
fn of_two_broken_checks_the_first_decides() {
    let mut rng = Rng::new(2);
    for _ in 0..20 {
        for number in 1..=12 {
            for other in number + 1..=12 {
                let file = broken_twice(&mut rng, number, other);
                assert_eq!(open(&file).0, number, "{number} and {other}");
            }
        }
    }
}
