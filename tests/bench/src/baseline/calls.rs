//! The four calls on a record.

use permit_monitor::{Plant, Record};

use super::intact::is_intact;
use super::{first_byte, nonzero, rights_of, Counts, Tables, NONE};

/// One request on a record: 20 first.
#[inline(never)]
#[export_name = "baseline_call"]
pub fn call(record: &mut Record, request: [u8; 5]) -> u8 {
    let mut tables = Tables::empty();
    if !is_intact(record, &mut tables) {
        return 20;
    }
    let [kind, a, b, c, d] = request;
    match kind {
        0 => set(&mut record.levels, Counts::of(&record.plant), &tables.sizes, a, b, c, d),
        1 => start(record, a, b, |plant, group, level| choice(plant, &tables, group, level)),
        2 => stop(record, a),
        3 => gate(record, a, b, c),
        _ => 32,
    }
}

/// The place of the levels of a skid and a task.
#[inline(always)]
fn levels_at(skid: u8, task: u8) -> usize {
    (usize::from(skid) * 16 + usize::from(task)) * 8
}

#[inline(always)]
pub fn set(
    levels: &mut [u8; 1024],
    counts: Counts,
    sizes: &[u8; 8],
    skid: u8,
    task: u8,
    requirement: u8,
    level: u8,
) -> u8 {
    if (skid >= counts.skids) | (task >= counts.tasks) | (requirement >= counts.requirements) {
        return set_refusal(counts, skid, task);
    }
    // The counts are at most 8, 16 and 8.
    unsafe {
        if level >= *sizes.get_unchecked(usize::from(requirement)) {
            return 24;
        }
        *levels.get_unchecked_mut(levels_at(skid, task) + usize::from(requirement)) = level;
    }
    0
}

#[inline(always)]
fn set_refusal(counts: Counts, skid: u8, task: u8) -> u8 {
    if skid >= counts.skids {
        21
    } else if task >= counts.tasks {
        22
    } else {
        23
    }
}

/// `choose` gives the tank for a group and a level, or none.
#[inline(always)]
pub fn start(
    record: &mut Record,
    skid: u8,
    task: u8,
    mut choose: impl FnMut(&Plant, usize, usize) -> u8,
) -> u8 {
    let plant = &record.plant;
    if skid >= plant.skids {
        return 21;
    }
    if task >= plant.tasks {
        return 22;
    }
    let s = usize::from(skid) & 7;
    if (plant.skid_tasks[s] >> (task & 15)) & 1 == 0 {
        return 25;
    }
    if record.running[s] != NONE {
        return 26;
    }
    let levels = &record.levels[levels_at(skid & 7, task & 15)..][..8];
    let mut row = [NONE; 8];
    let mut lacking = false;
    let mut needed = nonzero(rights_of(plant, usize::from(task)));
    while needed != 0 {
        let (g, rest) = first_byte(needed);
        needed = rest;
        let level = levels[usize::from(plant.group_requirement[g]) & 7];
        if level == NONE {
            return 27;
        }
        row[g] = choose(plant, g, usize::from(level));
        lacking |= row[g] == NONE;
    }
    if lacking {
        return 28;
    }
    record.running[s] = task;
    record.chosen[s * 8..s * 8 + 8].copy_from_slice(&row);
    0
}

/// The nearest tank with the lowest number, or none.
#[inline(always)]
pub fn choice(plant: &Plant, tables: &Tables, group: usize, level: usize) -> u8 {
    let l =
        usize::from(plant.requirement_lattice[usize::from(plant.group_requirement[group]) & 7]) & 7;
    let candidates = tables.places[group] & tables.under[l][level & 15];
    let mut lowest = NONE;
    let mut rest = candidates;
    while rest != 0 {
        let v = rest.trailing_zeros() as usize & 15;
        rest &= rest - 1;
        let nearest = plant.lattice_sets[l * 16 + v] & candidates == 1 << v;
        let tank = tables.tank_at[group * 16 + v];
        lowest = if nearest { lowest.min(tank) } else { lowest };
    }
    lowest
}

#[inline(always)]
pub fn stop(record: &mut Record, skid: u8) -> u8 {
    if skid >= record.plant.skids {
        return 21;
    }
    let s = usize::from(skid) & 7;
    record.running[s] = NONE;
    record.chosen[s * 8..s * 8 + 8].fill(NONE);
    0
}

#[inline(always)]
fn gate(record: &Record, skid: u8, tank: u8, right: u8) -> u8 {
    let plant = &record.plant;
    if (skid >= plant.skids) | (tank >= plant.tanks) | (right > 2) {
        return gate_refusal(Counts::of(plant), skid, tank);
    }
    let s = usize::from(skid) & 7;
    let task = record.running[s];
    if task == NONE {
        return 33;
    }
    let g = usize::from(plant.tank_group[usize::from(tank) & 63]) & 7;
    let named = (plant.task_rights[(usize::from(task) & 15) * 8 + g] >> right) & 1 == 1;
    if named & (record.chosen[s * 8 + g] == tank) {
        0
    } else {
        33
    }
}

/// The number of a gate that is refused.
#[inline(always)]
pub fn gate_refusal(counts: Counts, skid: u8, tank: u8) -> u8 {
    if skid >= counts.skids {
        21
    } else if tank >= counts.tanks {
        29
    } else {
        30
    }
}
