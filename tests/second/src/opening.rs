//! Plant file, edition 1, and its opening.
//!
//! "Opening, each check over the whole file before the next."

use crate::monitor::Record;
use crate::plant::{Plant, GROUPS, LATTICES, MOST, REQUIREMENTS, SKIDS, TANKS, TASKS};

/// "24 bytes lead the file."
pub const HEADER: usize = 24;

/// "the file's length, at most 4,096".
pub const LONGEST: usize = 4096;

/// "Record widths are 34, 2, 2, 2, 10 and 2 bytes", by section; one row for
/// each edition.
pub const WIDTHS: [[usize; 6]; 1] = [[34, 2, 2, 2, 10, 2]];

/// Opening: its number, and the fresh monitor; "a refused opening hands back a
/// record of zeros, which 20 refuses".
pub fn open(file: &[u8]) -> (u8, Record) {
    match opening_number(file) {
        0 => (0, Record::fresh(read_plant(file))),
        number => (number, Record::zeros()),
    }
}

/// The first of the checks 1 to 12 that the file breaks, or 0.
pub fn opening_number(file: &[u8]) -> u8 {
    match header_number(file) {
        0 => records_number(file),
        number => number,
    }
}

/// The first of the checks 1 to 6 that the file breaks, or 0.
pub fn header_number(file: &[u8]) -> u8 {
    if breaks_1(file) {
        1
    } else if breaks_2(file) {
        2
    } else if breaks_3(file) {
        3
    } else if breaks_4(file) {
        4
    } else if breaks_5(file) {
        5
    } else if breaks_6(file) {
        6
    } else {
        0
    }
}

/// The first of the checks 7 to 12 that the file breaks, or 0. The checks 1 to
/// 6 hold already, so every record can be read.
fn records_number(file: &[u8]) -> u8 {
    let plant = read_plant(file);
    if plant.breaks_7() || lattice_zero_byte_not_zero(file) {
        7
    } else if plant.breaks_8() {
        8
    } else if plant.breaks_9() {
        9
    } else if plant.breaks_10() || other_zero_byte_not_zero(file) {
        10
    } else if plant.breaks_11() {
        11
    } else if plant.breaks_12() {
        12
    } else {
        0
    }
}

/// "1: under 24 or over 4,096 bytes, or bytes 20 and 21 differ from the length."
fn breaks_1(file: &[u8]) -> bool {
    file.len() < HEADER || file.len() > LONGEST || stated_length(file) != file.len()
}

/// "2: edition." "Byte 0 is the edition, 1."
fn breaks_2(file: &[u8]) -> bool {
    file[0] != 1
}

/// "3: a count outside its range."
fn breaks_3(file: &[u8]) -> bool {
    (0..6).any(|kind| count(file, kind) < 1 || count(file, kind) > MOST[kind])
}

/// "4: byte 7, 22 or 23 not zero."
fn breaks_4(file: &[u8]) -> bool {
    file[7] != 0 || file[22] != 0 || file[23] != 0
}

/// "5: a section begins before 24 or ends past the file."
fn breaks_5(file: &[u8]) -> bool {
    (0..6).any(|kind| begin(file, kind) < HEADER || end(file, kind) > file.len())
}

/// "6: two sections share a byte." Every byte of the file is asked how many
/// sections it is part of.
fn breaks_6(file: &[u8]) -> bool {
    let fills = |kind: usize, byte: usize| begin(file, kind) <= byte && byte < end(file, kind);
    (0..file.len()).any(|byte| (0..6).filter(|&kind| fills(kind, byte)).count() > 1)
}

/// Part of check 7: in a lattice record, "byte 1 is zero".
fn lattice_zero_byte_not_zero(file: &[u8]) -> bool {
    second_byte_not_zero(file, LATTICES)
}

/// Part of check 10: "or a zero byte that isn't zero". In requirements, groups
/// and tasks it is the second byte; tanks and skids have none.
fn other_zero_byte_not_zero(file: &[u8]) -> bool {
    [REQUIREMENTS, GROUPS, TASKS].iter().any(|&kind| second_byte_not_zero(file, kind))
}

fn second_byte_not_zero(file: &[u8], kind: usize) -> bool {
    (0..count(file, kind)).any(|item| record(file, kind, item)[1] != 0)
}

/// "two-byte numbers are stored low byte first".
pub fn two_bytes(bytes: &[u8], at: usize) -> u16 {
    u16::from(bytes[at]) + 256 * u16::from(bytes[at + 1])
}

/// "Bytes 20 and 21 hold the file's length".
pub fn stated_length(file: &[u8]) -> usize {
    usize::from(two_bytes(file, 20))
}

/// "Bytes 1 to 6 count lattices [...] and skids".
fn count(file: &[u8], kind: usize) -> usize {
    usize::from(file[1 + kind])
}

/// The record width of a section; the file's edition has been tested.
fn width(file: &[u8], kind: usize) -> usize {
    WIDTHS[usize::from(file[0]) - 1][kind]
}

/// "Two-byte offsets at 8, 10, 12, 14, 16 and 18 say where the six sections
/// begin, in the same order."
pub fn begin(file: &[u8], kind: usize) -> usize {
    usize::from(two_bytes(file, 8 + 2 * kind))
}

/// The byte after the last one that the section fills.
pub fn end(file: &[u8], kind: usize) -> usize {
    begin(file, kind) + count(file, kind) * width(file, kind)
}

/// "Records are read from the part of the file that begins at their section's
/// offset."
fn record(file: &[u8], kind: usize, item: usize) -> &[u8] {
    let part = &file[begin(file, kind)..end(file, kind)];
    let width = width(file, kind);
    &part[item * width..(item + 1) * width]
}

/// The plant that the file describes. The checks 1 to 6 hold; what the records
/// say is tested afterwards. Entries past the counts stay zero.
fn read_plant(file: &[u8]) -> Plant {
    let mut plant = Plant::zeros();
    plant.lattices = file[1];
    plant.requirements = file[2];
    plant.groups = file[3];
    plant.tanks = file[4];
    plant.tasks = file[5];
    plant.skids = file[6];
    for kind in 0..6 {
        for item in 0..count(file, kind) {
            read_record(&mut plant, kind, item, record(file, kind, item));
        }
    }
    plant
}

/// One record of a section, its bytes counted from its own zero.
fn read_record(plant: &mut Plant, kind: usize, item: usize, bytes: &[u8]) {
    match kind {
        LATTICES => read_lattice(plant, item, bytes),
        REQUIREMENTS => plant.requirement_lattice[item] = bytes[0],
        GROUPS => plant.group_requirement[item] = bytes[0],
        TANKS => read_tank(plant, item, bytes),
        TASKS => read_task(plant, item, bytes),
        SKIDS => plant.skid_tasks[item] = two_bytes(bytes, 0),
        _ => unreachable!("there are six sections"),
    }
}

/// "byte 0 is the number n of levels [...]; byte 1 is zero; then sixteen
/// two-byte sets".
fn read_lattice(plant: &mut Plant, item: usize, bytes: &[u8]) {
    plant.lattice_sizes[item] = bytes[0];
    for i in 0..16 {
        plant.lattice_sets[item * 16 + i] = two_bytes(bytes, 2 + 2 * i);
    }
}

/// "its group, then its level".
fn read_tank(plant: &mut Plant, item: usize, bytes: &[u8]) {
    plant.tank_group[item] = bytes[0];
    plant.tank_level[item] = bytes[1];
}

/// "a byte whose bit d names requirement d; a zero byte; eight bytes, byte g
/// having bit r set where the task names right r on group g".
fn read_task(plant: &mut Plant, item: usize, bytes: &[u8]) {
    plant.task_requirements[item] = bytes[0];
    plant.task_rights[item * 8..item * 8 + 8].copy_from_slice(&bytes[2..10]);
}
