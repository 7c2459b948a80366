//! Opening: checks 1 to 12 and the fresh record.

use permit_monitor::{Plant, Record};

use super::items::items_number;
use super::lattice::lattices_number;
use super::{Tables, MOST, NONE};

const WIDTHS: [usize; 6] = [34, 2, 2, 2, 10, 2];

/// Opening: its number; the record is then fresh, or of zeros.
#[inline(never)]
#[export_name = "baseline_open"]
pub fn open(record: &mut Record, file: &[u8]) -> u8 {
    let mut tables = Tables::empty();
    let number = open_plant(&mut record.plant, file, &mut tables);
    if number == 0 {
        clear_parts(record);
    } else {
        *record = Record::zeros();
    }
    number
}

/// Nothing set, running or chosen.
#[inline(always)]
pub fn clear_parts(record: &mut Record) {
    record.levels = [NONE; 1024];
    record.running = [NONE; 8];
    record.chosen = [NONE; 64];
}

/// The number of the first check that the file breaks, or 0 and its plant.
#[inline(always)]
pub fn open_plant(plant: &mut Plant, file: &[u8], tables: &mut Tables) -> u8 {
    let begins = match section_begins(file) {
        Ok(begins) => begins,
        Err(number) => return number,
    };
    let zeros = read(plant, file, &begins);
    if zeros.lattices != 0 {
        return 7;
    }
    let number = lattices_number(plant, tables);
    if number != 0 {
        return number;
    }
    if zeros.others != 0 {
        return 10;
    }
    items_number(plant, tables)
}

/// Where a section begins and how many bytes it has; 0 and 0 where one of 1 to 6
/// fails or there is no such section.
#[inline(never)]
#[export_name = "baseline_section"]
pub fn section(file: &[u8], kind: usize) -> (usize, usize) {
    match section_begins(file) {
        Ok(begins) if kind < 6 => (begins[kind], usize::from(file[1 + kind]) * WIDTHS[kind]),
        _ => (0, 0),
    }
}

/// Checks 1 to 6, and where the sections begin.
#[inline(always)]
fn section_begins(file: &[u8]) -> Result<[usize; 6], u8> {
    if file.len() < 24 || file.len() > 4096 || two_bytes(file, 20) != file.len() {
        return Err(1);
    }
    if file[0] != 1 {
        return Err(2);
    }
    if (0..6).any(|kind| file[1 + kind].wrapping_sub(1) >= MOST[kind]) {
        return Err(3);
    }
    if file[7] | file[22] | file[23] != 0 {
        return Err(4);
    }
    let mut begins = [0; 6];
    let mut ends = [0; 6];
    let mut outside = false;
    for kind in 0..6 {
        begins[kind] = two_bytes(file, 8 + 2 * kind);
        ends[kind] = begins[kind] + usize::from(file[1 + kind]) * WIDTHS[kind];
        outside |= (begins[kind] < 24) | (ends[kind] > file.len());
    }
    if outside {
        return Err(5);
    }
    if share(&begins, &ends) {
        return Err(6);
    }
    Ok(begins)
}

/// Whether two of the sections share a byte; none of them is empty.
#[inline(always)]
fn share(begins: &[usize; 6], ends: &[usize; 6]) -> bool {
    let mut shared = false;
    for i in 1..6 {
        for j in 0..i {
            shared |= (begins[i] < ends[j]) & (begins[j] < ends[i]);
        }
    }
    shared
}

#[inline(always)]
fn two_bytes(bytes: &[u8], at: usize) -> usize {
    usize::from(u16::from_le_bytes([bytes[at], bytes[at + 1]]))
}

/// The file's bytes that should be zero, or-ed together.
struct Zeros {
    lattices: u8,
    others: u8,
}

/// The records of the six sections, which lie within the file.
#[inline(always)]
fn read(plant: &mut Plant, file: &[u8], begins: &[usize; 6]) -> Zeros {
    *plant = Plant::zeros();
    [plant.lattices, plant.requirements, plant.groups] = [file[1], file[2], file[3]];
    [plant.tanks, plant.tasks, plant.skids] = [file[4], file[5], file[6]];
    let section = |kind: usize| {
        let length = usize::from(file[1 + kind]) * WIDTHS[kind];
        // Check 5 has placed the section within the file.
        unsafe { file.get_unchecked(begins[kind]..begins[kind] + length) }
    };
    Zeros {
        lattices: read_lattices(plant, section(0)),
        others: read_numbers(&mut plant.requirement_lattice, section(1))
            | read_numbers(&mut plant.group_requirement, section(2))
            | read_tanks(plant, section(3))
            | read_tasks(plant, section(4))
            | read_skids(plant, section(5)),
    }
}

#[inline(always)]
fn read_lattices(plant: &mut Plant, section: &[u8]) -> u8 {
    let mut zeros = 0;
    let sets = plant.lattice_sets.chunks_exact_mut(16);
    for ((record, size), sets) in section.chunks_exact(34).zip(&mut plant.lattice_sizes).zip(sets) {
        *size = record[0];
        zeros |= record[1];
        for i in 0..16 {
            sets[i] = u16::from_le_bytes([record[2 + 2 * i], record[3 + 2 * i]]);
        }
    }
    zeros
}

/// Requirements or groups.
#[inline(always)]
fn read_numbers(numbers: &mut [u8; 8], section: &[u8]) -> u8 {
    let mut zeros = 0;
    for (record, number) in section.chunks_exact(2).zip(numbers) {
        *number = record[0];
        zeros |= record[1];
    }
    zeros
}

#[inline(always)]
fn read_tanks(plant: &mut Plant, section: &[u8]) -> u8 {
    let tanks = plant.tank_group.iter_mut().zip(&mut plant.tank_level);
    for (record, (group, level)) in section.chunks_exact(2).zip(tanks) {
        *group = record[0];
        *level = record[1];
    }
    0
}

#[inline(always)]
fn read_tasks(plant: &mut Plant, section: &[u8]) -> u8 {
    let mut zeros = 0;
    let tasks = plant.task_requirements.iter_mut().zip(plant.task_rights.chunks_exact_mut(8));
    for (record, (names, rights)) in section.chunks_exact(10).zip(tasks) {
        *names = record[0];
        zeros |= record[1];
        rights.copy_from_slice(&record[2..10]);
    }
    zeros
}

#[inline(always)]
fn read_skids(plant: &mut Plant, section: &[u8]) -> u8 {
    for (record, may) in section.chunks_exact(2).zip(&mut plant.skid_tasks) {
        *may = u16::from_le_bytes([record[0], record[1]]);
    }
    0
}
