//! Records: those that lists of calls reach, those that differ from them only
//! where test 20 does not look, and those that break one clause of test 20.

use super::calls::calls;
use super::lattices::{no_lattice_of_size, no_order_of_size};
use super::plants::{accepted_file, Size, SIZES};
use super::rng::Rng;
use crate::lattice::Lattice;
use crate::monitor::{Record, NONE, UNSET};
use crate::opening::open;
use crate::plant::{Plant, GROUPS, LATTICES, MOST, REQUIREMENTS, SKIDS, TANKS, TASKS};
use crate::queue::queue;

/// The clauses of test 20: the opening checks that a record can break, and the
/// three on the changing parts.
#[derive(Clone, Copy, PartialEq, Eq, Debug)]
pub enum Clause {
    Count,
    Layout,
    Order,
    Lattice,
    NumberOrBit,
    Places,
    Names,
    Level,
    Running,
    Chosen,
}

pub const CLAUSES: [Clause; 10] = [
    Clause::Count,
    Clause::Layout,
    Clause::Order,
    Clause::Lattice,
    Clause::NumberOrBit,
    Clause::Places,
    Clause::Names,
    Clause::Level,
    Clause::Running,
    Clause::Chosen,
];

/// A record as a list of calls from a fresh monitor leaves it.
pub fn reached(rng: &mut Rng, size: Size) -> Record {
    let (_, mut record) = open(&accepted_file(rng, size));
    let count = rng.below(60);
    let list = calls(rng, &record.plant, count);
    queue(&mut record, &list, &mut vec![0; list.len()]);
    record
}

/// A record of any bytes, of zeros, of 255s, or a reached one with some bytes
/// changed. Test 20 may refuse it or not.
pub fn random_record(rng: &mut Rng) -> Record {
    let length = record_bytes(&Record::zeros()).len();
    match rng.below(8) {
        0 => record_of_bytes(&rng.bytes(length)),
        1 => Record::zeros(),
        2 => record_of_bytes(&vec![255; length]),
        _ => {
            let size = rng.pick(&SIZES);
            let mut bytes = record_bytes(&reached(rng, size));
            for _ in 0..rng.between(1, 3) {
                let at = rng.below(length);
                let near = bytes[at].wrapping_add(rng.pick(&[1, 255]));
                bytes[at] = if rng.chance(1, 2) { near } else { rng.byte() };
            }
            record_of_bytes(&bytes)
        }
    }
}

/// A record that breaks this clause of test 20, and as few others as possible.
pub fn damaged(rng: &mut Rng, clause: Clause) -> Record {
    loop {
        let size = rng.pick(&SIZES);
        let mut record = reached(rng, size);
        if damage(rng, &mut record, clause) {
            return record;
        }
    }
}

/// Breaks the clause, or says that this record has no room for it.
fn damage(rng: &mut Rng, record: &mut Record, clause: Clause) -> bool {
    match clause {
        Clause::Count => damage_count(rng, &mut record.plant),
        Clause::Layout => damage_layout(rng, &mut record.plant),
        Clause::Order => damage_lattice(rng, &mut record.plant, no_order_of_size, 1),
        Clause::Lattice => damage_lattice(rng, &mut record.plant, no_lattice_of_size, 2),
        Clause::NumberOrBit => damage_number_or_bit(rng, record),
        Clause::Places => damage_places(rng, &mut record.plant),
        Clause::Names => damage_names(rng, &mut record.plant),
        Clause::Level => damage_level(rng, record),
        Clause::Running => damage_running(rng, record),
        Clause::Chosen => damage_chosen(rng, record),
    }
}

/// 3: a count of 0, of one more than the most, or far off.
fn damage_count(rng: &mut Rng, plant: &mut Plant) -> bool {
    let kind = rng.below(6);
    let count = rng.pick(&[0, MOST[kind] as u8 + 1, 255]);
    *[
        &mut plant.lattices,
        &mut plant.requirements,
        &mut plant.groups,
        &mut plant.tanks,
        &mut plant.tasks,
        &mut plant.skids,
    ][kind] = count;
    true
}

/// 7: n out of range, or a set or a bit at n or past it.
fn damage_layout(rng: &mut Rng, plant: &mut Plant) -> bool {
    let l = rng.below(plant.count(LATTICES));
    let n = usize::from(plant.lattice_sizes[l]);
    let past = if rng.chance(1, 2) { n } else { 15 };
    match rng.below(4) {
        0 => plant.lattice_sizes[l] = 0,
        1 if n == 16 => plant.lattice_sizes[l] = 17,
        1 => plant.lattice_sizes[l] = rng.pick(&[17, 255]),
        2 if n < 16 => plant.lattice_sets[l * 16 + past] = 1 << rng.below(n),
        3 if n < 16 => plant.lattice_sets[l * 16 + rng.below(n)] |= 1 << past,
        _ => return false,
    }
    true
}

/// 8 and 9: another relation of the same size.
fn damage_lattice(
    rng: &mut Rng,
    plant: &mut Plant,
    make: fn(&mut Rng, usize) -> Lattice,
    least: usize,
) -> bool {
    let l = rng.below(plant.count(LATTICES));
    let n = usize::from(plant.lattice_sizes[l]);
    if n < least {
        return false;
    }
    plant.lattice_sets[l * 16..l * 16 + 16].copy_from_slice(&make(rng, n).sets);
    true
}

/// Check 10. Where a number moves to the count, the item there is made like item 0,
/// so that a reader who doesn't test the number finds nothing else amiss.
fn damage_number_or_bit(rng: &mut Rng, record: &mut Record) -> bool {
    let plant = &mut record.plant;
    let [lattices, requirements, groups, tanks, tasks, skids] = plant.counts();
    let tank = rng.below(tanks);
    let task = rng.below(tasks);
    let n = plant.lattice_of_group(plant.group_of(tank)).n;
    match rng.below(8) {
        0 if lattices < 8 => {
            copy_lattice_0(plant, lattices);
            plant.requirement_lattice[rng.below(requirements)] = lattices as u8;
        }
        1 if requirements < 8 => {
            plant.requirement_lattice[requirements] = plant.requirement_lattice[0];
            plant.group_requirement[rng.below(groups)] = requirements as u8;
        }
        2 => plant.tank_group[tank] = groups as u8,
        3 => plant.tank_level[tank] = n as u8,
        4 if requirements < 8 => plant.task_requirements[task] |= 1 << requirements,
        5 if groups < 8 => plant.task_rights[task * 8 + groups] = rng.between(1, 7) as u8,
        6 if tasks < 16 => plant.skid_tasks[rng.below(skids)] |= 1 << tasks,
        7 => return damage_right_bit(rng, plant),
        _ => return false,
    }
    true
}

fn copy_lattice_0(plant: &mut Plant, l: usize) {
    plant.lattice_sizes[l] = plant.lattice_sizes[0];
    plant.lattice_sets.copy_within(0..16, l * 16);
}

/// A right bit 3 to 7 where the task names a right already.
fn damage_right_bit(rng: &mut Rng, plant: &mut Plant) -> bool {
    match some_need(rng, plant) {
        Some((task, group)) => {
            plant.task_rights[task * 8 + group] |= 1 << rng.between(3, 7);
            true
        }
        None => false,
    }
}

/// A task and a group on which it names a right.
fn some_need(rng: &mut Rng, plant: &Plant) -> Option<(usize, usize)> {
    let task = rng.below(plant.count(TASKS));
    let groups = plant.needed_groups(task);
    match groups.is_empty() {
        true => None,
        false => Some((task, rng.pick(&groups))),
    }
}

/// 11: a tank moves to the level of another tank of its group.
fn damage_places(rng: &mut Rng, plant: &mut Plant) -> bool {
    let group = rng.below(plant.count(GROUPS));
    let mut tanks = plant.tanks_of(group);
    if tanks.len() < 2 {
        return false;
    }
    rng.shuffle(&mut tanks);
    plant.tank_level[tanks[0]] = plant.tank_level[tanks[1]];
    true
}

/// 12: a task no longer names a requirement that one of its rights needs.
fn damage_names(rng: &mut Rng, plant: &mut Plant) -> bool {
    match some_need(rng, plant) {
        Some((task, group)) => {
            plant.task_requirements[task] &= !(1 << plant.requirement_of(group));
            true
        }
        None => false,
    }
}

/// A stored level at n, or far off.
fn damage_level(rng: &mut Rng, record: &mut Record) -> bool {
    let plant = &record.plant;
    let skid = rng.below(plant.count(SKIDS));
    let task = rng.below(plant.count(TASKS));
    let requirement = rng.below(plant.count(REQUIREMENTS));
    let n = plant.lattice_of_requirement(requirement).n as u8;
    record.levels[(skid * 16 + task) * 8 + requirement] = rng.pick(&[n, n, 16, 254]);
    true
}

/// A running task that the skid may not run, or none of the plant. The skid's
/// choices fit every task, so that only the running task is wrong.
fn damage_running(rng: &mut Rng, record: &mut Record) -> bool {
    let plant = record.plant;
    let tasks = plant.count(TASKS);
    let skid = rng.below(plant.count(SKIDS));
    let wrong: Vec<usize> = (0..tasks).filter(|&t| !plant.may_run(skid, t)).collect();
    let task = match rng.below(4) {
        0 => tasks,
        1 => rng.pick(&[16, 17, 254]),
        _ if wrong.is_empty() => return false,
        _ => rng.pick(&wrong),
    };
    record.running[skid] = task as u8;
    for group in 0..plant.count(GROUPS) {
        if let Some(&tank) = plant.tanks_of(group).first() {
            record.chosen[skid * 8 + group] = tank as u8;
        }
    }
    true
}

/// Where a running task has a right: no tank, a tank of another group, or the
/// first number past the tanks.
fn damage_chosen(rng: &mut Rng, record: &mut Record) -> bool {
    let plant = &record.plant;
    let skid = rng.below(plant.count(SKIDS));
    if record.running[skid] == NONE {
        return false;
    }
    let groups = plant.needed_groups(usize::from(record.running[skid]));
    if groups.is_empty() {
        return false;
    }
    let group = rng.pick(&groups);
    let tank = rng.below(plant.count(TANKS));
    let other = if plant.group_of(tank) == group { 255 } else { tank as u8 };
    record.chosen[skid * 8 + group] = rng.pick(&[255, plant.tanks, other, 64, 254]);
    true
}

/// A change that test 20 does not mind: an entry past the counts, a choice that
/// no running task has a right on, or another level of the lattice.
pub fn free_change(rng: &mut Rng, record: &Record) -> Record {
    let mut changed = *record;
    match rng.below(4) {
        0 => change_plant_past_counts(rng, &mut changed.plant),
        1 => change_parts_past_counts(rng, &mut changed),
        2 => change_idle_choices(rng, &mut changed),
        _ => change_levels(rng, &mut changed),
    }
    changed
}

/// Whole entries of the plant for items past the counts.
fn change_plant_past_counts(rng: &mut Rng, plant: &mut Plant) {
    let [lattices, requirements, groups, tanks, tasks, skids] = plant.counts();
    let mut fill = |bytes: &mut [u8]| bytes.iter_mut().for_each(|byte| *byte = rng.byte());
    fill(&mut plant.lattice_sizes[lattices..]);
    fill(&mut plant.requirement_lattice[requirements..]);
    fill(&mut plant.group_requirement[groups..]);
    fill(&mut plant.tank_group[tanks..]);
    fill(&mut plant.tank_level[tanks..]);
    fill(&mut plant.task_requirements[tasks..]);
    fill(&mut plant.task_rights[tasks * 8..]);
    for set in &mut plant.lattice_sets[lattices * 16..] {
        *set = rng.bits() as u16;
    }
    for may in &mut plant.skid_tasks[skids..] {
        *may = rng.bits() as u16;
    }
}

/// Levels, running tasks and choices for items past the counts.
fn change_parts_past_counts(rng: &mut Rng, record: &mut Record) {
    let [_, requirements, groups, _, tasks, skids] = record.plant.counts();
    for (i, level) in record.levels.iter_mut().enumerate() {
        let within = i / 128 < skids && (i / 8) % 16 < tasks && i % 8 < requirements;
        *level = if within { *level } else { rng.byte() };
    }
    for (i, chosen) in record.chosen.iter_mut().enumerate() {
        let within = i / 8 < skids && i % 8 < groups;
        *chosen = if within { *chosen } else { rng.byte() };
    }
    for running in &mut record.running[skids..] {
        *running = rng.byte();
    }
}

/// Choices of skids that run nothing, and on groups that the running task has
/// no right on.
fn change_idle_choices(rng: &mut Rng, record: &mut Record) {
    for skid in 0..record.plant.count(SKIDS) {
        let task = usize::from(record.running[skid]);
        for group in 0..8 {
            let idle = task == usize::from(NONE) || !record.plant.needs(task, group);
            if idle && rng.chance(1, 2) {
                record.chosen[skid * 8 + group] = rng.byte();
            }
        }
    }
}

/// Stored levels, at the last level of their lattices or unset.
fn change_levels(rng: &mut Rng, record: &mut Record) {
    let [_, requirements, _, _, tasks, skids] = record.plant.counts();
    for _ in 0..rng.between(1, 20) {
        let requirement = rng.below(requirements);
        let n = record.plant.lattice_of_requirement(requirement).n as u8;
        let place = (rng.below(skids) * 16 + rng.below(tasks)) * 8 + requirement;
        record.levels[place] = rng.pick(&[n - 1, 0, UNSET]);
    }
}

/// The record as its bytes stand in memory where two-byte numbers are stored
/// low byte first.
pub fn record_bytes(record: &Record) -> Vec<u8> {
    let plant = &record.plant;
    let mut bytes = plant.counts().map(|count| count as u8).to_vec();
    bytes.extend(plant.lattice_sizes);
    bytes.extend(plant.lattice_sets.iter().flat_map(|set| set.to_le_bytes()));
    bytes.extend(plant.requirement_lattice);
    bytes.extend(plant.group_requirement);
    bytes.extend(plant.tank_group);
    bytes.extend(plant.tank_level);
    bytes.extend(plant.task_requirements);
    bytes.extend(plant.task_rights);
    bytes.extend(plant.skid_tasks.iter().flat_map(|may| may.to_le_bytes()));
    bytes.extend(record.levels);
    bytes.extend(record.running);
    bytes.extend(record.chosen);
    bytes
}

/// The record whose bytes these are.
pub fn record_of_bytes(bytes: &[u8]) -> Record {
    let mut rest = bytes;
    let mut take = |length: usize| {
        let (part, after) = rest.split_at(length);
        rest = after;
        part
    };
    let two = |pair: &[u8]| u16::from_le_bytes([pair[0], pair[1]]);
    let mut record = Record::zeros();
    let plant = &mut record.plant;
    let counts = take(6);
    [plant.lattices, plant.requirements, plant.groups] = [counts[0], counts[1], counts[2]];
    [plant.tanks, plant.tasks, plant.skids] = [counts[3], counts[4], counts[5]];
    plant.lattice_sizes.copy_from_slice(take(8));
    plant.lattice_sets.iter_mut().zip(take(256).chunks(2)).for_each(|(set, pair)| *set = two(pair));
    plant.requirement_lattice.copy_from_slice(take(8));
    plant.group_requirement.copy_from_slice(take(8));
    plant.tank_group.copy_from_slice(take(64));
    plant.tank_level.copy_from_slice(take(64));
    plant.task_requirements.copy_from_slice(take(16));
    plant.task_rights.copy_from_slice(take(128));
    plant.skid_tasks.iter_mut().zip(take(16).chunks(2)).for_each(|(may, pair)| *may = two(pair));
    record.levels.copy_from_slice(take(1024));
    record.running.copy_from_slice(take(8));
    record.chosen.copy_from_slice(take(64));
    record
}
