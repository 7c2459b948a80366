//! Plant files in which one opening check, 1 to 12, is broken alone and at its
//! boundary. Where a check cannot be broken without a later one (no lattice at
//! all, for example), the check asked for still comes first.

use super::lattices::{no_lattice_of_size, no_order_of_size};
use super::plants::{draft, lattice_record, put_two_bytes, state_length, Draft, Layout, SIZES};
use super::rng::Rng;
use crate::lattice::Lattice;
use crate::opening::{two_bytes, HEADER, LONGEST, WIDTHS};
use crate::plant::{GROUPS, LATTICES, MOST, REQUIREMENTS, TANKS, TASKS};

/// A file that breaks the check with this number, and no check before it.
pub fn broken(rng: &mut Rng, number: u8) -> Vec<u8> {
    broken_in(rng, &[number])
}

/// A file that breaks two checks, so that the lower number decides.
pub fn broken_twice(rng: &mut Rng, one: u8, other: u8) -> Vec<u8> {
    broken_in(rng, &[one.min(other), one.max(other)])
}

/// The numbers rise. Records are broken first and the header's bytes last,
/// because the header says where the records are.
fn broken_in(rng: &mut Rng, numbers: &[u8]) -> Vec<u8> {
    let mut draft = fitting_draft(rng, numbers);
    for &number in numbers.iter().rev().filter(|&&number| number >= 7) {
        break_records(rng, &mut draft, number);
    }
    if numbers.contains(&3) {
        break_count(rng, &mut draft);
    }
    if numbers == [5] && rng.chance(1, 3) {
        return early_file(rng, &mut draft);
    }
    let mut file = match numbers.contains(&6) {
        true => sharing_file(rng, &mut draft),
        false => Layout::random(rng, &draft).file(&draft),
    };
    for &number in numbers.iter().rev() {
        break_header(rng, &mut file, number);
    }
    file
}

/// Some draft in which the records can be broken as asked: a lattice with two
/// levels for 9, two tanks for 11, a right for 12, room past the counts for 10.
fn fitting_draft(rng: &mut Rng, numbers: &[u8]) -> Draft {
    loop {
        let size = rng.pick(&SIZES);
        let draft = draft(rng, size);
        let fits = |number: &u8| match number {
            9 => draft.lattices.iter().any(|lattice| lattice[0] > 1),
            11 => draft.tanks.len() > 1,
            12 => draft.tasks.iter().any(|task| task[2..] != [0; 8]),
            _ => true,
        };
        if numbers.iter().all(fits) {
            return draft;
        }
    }
}

/// Check 3: no record of a kind, or one more than the most.
fn break_count(rng: &mut Rng, draft: &mut Draft) {
    let kind = rng.below(6);
    let count = if rng.chance(1, 2) { 0 } else { MOST[kind] + 1 };
    match kind {
        LATTICES => recount(&mut draft.lattices, count),
        REQUIREMENTS => recount(&mut draft.requirements, count),
        GROUPS => recount(&mut draft.groups, count),
        TANKS => recount(&mut draft.tanks, count),
        TASKS => recount(&mut draft.tasks, count),
        _ => recount(&mut draft.skids, count),
    }
}

/// So many records, new ones like the first.
fn recount<T: Copy>(records: &mut Vec<T>, count: usize) {
    let first = records[0];
    records.resize(count, first);
}

/// Checks 1, 2, 4 and 5, which need the header's bytes alone.
fn break_header(rng: &mut Rng, file: &mut Vec<u8>, number: u8) {
    match number {
        1 => break_length(rng, file),
        2 => file[0] = rng.pick(&[0, 2, 3, 129, 255]),
        4 => file[rng.pick(&[7, 22, 23])] = rng.pick(&[1, 2, 128, 255]),
        5 => break_offset(rng, file),
        _ => (),
    }
}

/// Check 1: 23 or 4,097 bytes that say so, or a length that isn't the stated one.
fn break_length(rng: &mut Rng, file: &mut Vec<u8>) {
    let length = file.len();
    match rng.below(8) {
        0 => {
            file.truncate(23);
            state_length(file);
        }
        1 => file.truncate(rng.below(23)),
        2 => {
            file.resize(LONGEST + 1, 0);
            state_length(file);
        }
        3 => put_two_bytes(file, 20, length + 1),
        4 => put_two_bytes(file, 20, length - 1),
        5 => put_two_bytes(file, 20, length + 256),
        6 => file.push(0),
        _ => {
            file.pop();
        }
    }
}

/// Check 5: a section begins just before 24 or ends just past the file.
fn break_offset(rng: &mut Rng, file: &mut Vec<u8>) {
    let kind = rng.below(6);
    let filled = usize::from(file[1 + kind]) * WIDTHS[0][kind];
    let offset = match rng.below(6) {
        0 => HEADER - 1,
        1 => rng.below(HEADER),
        2 => (file.len() + 1).saturating_sub(filled),
        3 => file.len(),
        4 => 65_535,
        _ => return cut_last_section(file),
    };
    put_two_bytes(file, 8 + 2 * kind, offset);
}

/// The file ends one byte before its last section does, and says its length.
fn cut_last_section(file: &mut Vec<u8>) {
    let end = |kind: usize| {
        usize::from(two_bytes(file, 8 + 2 * kind)) + usize::from(file[1 + kind]) * WIDTHS[0][kind]
    };
    let last = (0..6).map(end).max().unwrap_or(HEADER);
    file.truncate(last - 1);
    state_length(file);
}

/// Check 5 alone: the tanks begin at byte 23, the header's last zero byte,
/// which is right as the group of the first tank. Without a tank of group 0
/// that byte would be wrong, and the tanks then begin there all the same.
fn early_file(rng: &mut Rng, draft: &mut Draft) -> Vec<u8> {
    tank_of_group_0_first(draft);
    let mut layout = Layout::random(rng, draft);
    layout.gaps[0].clear();
    place_section(&mut layout, TANKS, 0);
    let mut file = layout.file(draft);
    file.remove(HEADER);
    for kind in 0..6 {
        let begin = usize::from(two_bytes(&file, 8 + 2 * kind));
        put_two_bytes(&mut file, 8 + 2 * kind, begin - 1);
    }
    state_length(&mut file);
    file
}

/// A tank of group 0, if there is one, gets number 0.
fn tank_of_group_0_first(draft: &mut Draft) {
    if let Some(tank) = draft.tanks.iter().position(|tank| tank[0] == 0) {
        draft.tanks.swap(0, tank);
    }
}

/// The section of a kind changes places with the one that stands here.
fn place_section(layout: &mut Layout, kind: usize, place: usize) {
    let at = layout.order.iter().position(|&other| other == kind).unwrap_or(place);
    layout.order.swap(place, at);
}

/// Check 6: two sections share one byte or more.
fn sharing_file(rng: &mut Rng, draft: &mut Draft) -> Vec<u8> {
    let mut layout = Layout::random(rng, draft);
    while layout.file(draft).len() > LONGEST / 2 {
        layout = Layout::random(rng, draft);
    }
    match rng.below(3) {
        0 => within_file(rng, draft, &layout),
        1 => touching_file(draft, &mut layout, rng.below(5)),
        _ => agreeing_file(rng, draft, &mut layout),
    }
}

/// One section begins within another.
fn within_file(rng: &mut Rng, draft: &Draft, layout: &Layout) -> Vec<u8> {
    let kind = rng.below(6);
    let other = (kind + rng.between(1, 5)) % 6;
    let mut file = layout.file(draft);
    let begin = usize::from(two_bytes(&file, 8 + 2 * kind));
    share(rng, &mut file, begin, draft.section(kind).len().max(1), other);
    file
}

/// The section after this place shares one byte with the section in it.
fn touching_file(draft: &Draft, layout: &mut Layout, place: usize) -> Vec<u8> {
    layout.gaps[place + 1].clear();
    let mut file = layout.file(draft);
    pull_back(&mut file, layout.order[place + 1]);
    file
}

/// Check 6 alone: the last byte of the groups, a zero, is also the first of the
/// tanks, the group of tank 0. Both sections are right in every byte.
fn agreeing_file(rng: &mut Rng, draft: &mut Draft, layout: &mut Layout) -> Vec<u8> {
    let place = rng.below(5);
    tank_of_group_0_first(draft);
    place_section(layout, GROUPS, place);
    place_section(layout, TANKS, place + 1);
    touching_file(draft, layout, place)
}

/// Another section begins within the one that begins here.
fn share(rng: &mut Rng, file: &mut Vec<u8>, begin: usize, length: usize, other: usize) {
    put_two_bytes(file, 8 + 2 * other, begin + rng.below(length));
    let end = usize::from(two_bytes(file, 8 + 2 * other))
        + usize::from(file[1 + other]) * WIDTHS[0][other];
    if end > file.len() {
        file.resize(end, 0);
        state_length(file);
    }
}

/// The section begins one byte earlier and keeps its content, so it shares one
/// byte with the section that it touched.
fn pull_back(file: &mut [u8], kind: usize) {
    let begin = usize::from(two_bytes(file, 8 + 2 * kind));
    let end = begin + usize::from(file[1 + kind]) * WIDTHS[0][kind];
    file.copy_within(begin..end, begin - 1);
    put_two_bytes(file, 8 + 2 * kind, begin - 1);
}

/// Checks 7 to 12, in the records.
fn break_records(rng: &mut Rng, draft: &mut Draft, number: u8) {
    match number {
        7 => break_lattice_layout(rng, draft),
        8 => break_lattice(rng, draft, no_order_of_size, 1),
        9 => break_lattice(rng, draft, no_lattice_of_size, 2),
        10 => break_number_or_bit(rng, draft),
        11 => break_places(rng, draft),
        _ => break_names(rng, draft),
    }
}

/// Check 7: n just out of range, the zero byte, a set or a bit at n or past it.
fn break_lattice_layout(rng: &mut Rng, draft: &mut Draft) {
    let l = rng.below(draft.lattices.len());
    let lattice = &mut draft.lattices[l];
    let n = usize::from(lattice[0]);
    let past = if rng.chance(1, 2) { n } else { rng.between(n, 15.max(n)) };
    match rng.below(6) {
        0 => lattice[0] = rng.pick(&[17, 18, 32, 255]),
        1 => *lattice = [0; 34],
        2 => lattice[1] = rng.pick(&[1, 128, 255]),
        3 if n < 16 => lattice[2 + 2 * past] = 1,
        4 if n < 16 => set_bit(&mut lattice[2 + 2 * rng.below(n)..], past),
        5 if n > 1 => lattice[0] -= 1,
        _ => lattice[1] = 1,
    }
}

/// Bit j of the two-byte set that stands first.
fn set_bit(set: &mut [u8], j: usize) {
    set[j / 8] |= 1 << (j % 8);
}

/// Checks 8 and 9: a lattice of at least so many levels gives way to a relation
/// of the same size.
fn break_lattice(
    rng: &mut Rng,
    draft: &mut Draft,
    make: fn(&mut Rng, usize) -> Lattice,
    least: u8,
) {
    let large: Vec<usize> =
        (0..draft.lattices.len()).filter(|&l| draft.lattices[l][0] >= least).collect();
    let l = rng.pick(&large);
    let n = usize::from(draft.lattices[l][0]).min(16);
    draft.lattices[l] = lattice_record(&make(rng, n));
}

/// Check 10: one of its cases that this draft has room for.
fn break_number_or_bit(rng: &mut Rng, draft: &mut Draft) {
    let past = |rng: &mut Rng, count: usize| {
        if rng.chance(2, 3) {
            count as u8
        } else {
            rng.between(count, 255) as u8
        }
    };
    let requirement = rng.below(draft.requirements.len());
    let group = rng.below(draft.groups.len());
    let tank = rng.below(draft.tanks.len());
    match rng.below(8) {
        0 => draft.requirements[requirement][0] = past(rng, draft.lattices.len()),
        1 => draft.groups[group][0] = past(rng, draft.requirements.len()),
        2 => draft.tanks[tank][0] = past(rng, draft.groups.len()),
        3 => {
            let n = draft.levels_of_group(usize::from(draft.tanks[tank][0]));
            draft.tanks[tank][1] = past(rng, n);
        }
        4 => draft.requirements[requirement][1] = rng.pick(&[1, 255]),
        5 => draft.groups[group][1] = rng.pick(&[1, 255]),
        _ => break_task_or_skid(rng, draft),
    }
}

/// Check 10 in tasks and skids.
fn break_task_or_skid(rng: &mut Rng, draft: &mut Draft) {
    let [requirements, groups, tasks] =
        [draft.requirements.len(), draft.groups.len(), draft.tasks.len()];
    let task = &mut draft.tasks[rng.below(tasks)];
    let named = (0..groups).find(|&g| (task[0] >> draft.groups[g][0]) & 1 == 1);
    let skid = rng.below(draft.skids.len());
    match (rng.below(5), named) {
        (0, _) if requirements < 8 => task[0] |= 1 << rng.pick(&[requirements, 7]),
        (1, _) if groups < 8 => task[2 + rng.pick(&[groups, 7])] = rng.between(1, 7) as u8,
        (2, _) if tasks < 16 => set_bit(&mut draft.skids[skid], rng.pick(&[tasks, 15])),
        (3, Some(group)) => task[2 + group] |= 1 << rng.between(3, 7),
        _ => task[1] = rng.pick(&[1, 255]),
    }
}

/// Check 11: one tank stands where another does.
fn break_places(rng: &mut Rng, draft: &mut Draft) {
    let tanks = draft.tanks.len();
    let one = rng.below(tanks);
    if tanks < 64 && rng.chance(1, 2) {
        draft.tanks.push(draft.tanks[one]);
    } else {
        let other = (one + rng.between(1, tanks - 1)) % tanks;
        draft.tanks[other] = draft.tanks[one];
    }
}

/// Check 12: a task no longer names a requirement that one of its rights needs.
fn break_names(rng: &mut Rng, draft: &mut Draft) {
    let mut needs = Vec::new();
    for (t, task) in draft.tasks.iter().enumerate() {
        needs.extend((0..draft.groups.len()).filter(|g| task[2 + g] != 0).map(|g| (t, g)));
    }
    let (task, group) = rng.pick(&needs);
    draft.tasks[task][0] &= !(1 << draft.groups[group][0]);
}
