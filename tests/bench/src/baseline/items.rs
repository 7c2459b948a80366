//! Checks 10, 11 and 12, and where the tanks of each group stand.

use permit_monitor::Plant;

use super::{nonzero, rights_of, Tables, ONES};

/// 10, 11, 12 or 0. The counts are in range and the lattices are lattices.
#[inline(always)]
pub fn items_number(plant: &Plant, tables: &mut Tables) -> u8 {
    let requirements = &plant.requirement_lattice[..usize::from(plant.requirements)];
    let groups = &plant.group_requirement[..usize::from(plant.groups)];
    if any_from(requirements, plant.lattices) || any_from(groups, plant.requirements) {
        return 10;
    }
    for (size, &lattice) in tables.sizes.iter_mut().zip(requirements) {
        *size = plant.lattice_sizes[usize::from(lattice) & 7];
    }
    let Some(shared) = place_tanks(plant, tables) else {
        return 10;
    };
    let tasks = tasks_number(plant);
    if tasks == 10 || any_skid_wrong(plant) {
        10
    } else if shared {
        11
    } else {
        tasks
    }
}

#[inline(always)]
fn any_from(numbers: &[u8], count: u8) -> bool {
    numbers.iter().any(|&number| number >= count)
}

/// The tanks go into the tables. Tells whether two stand at one place; nothing
/// where a group or a level is out of range.
#[inline(always)]
fn place_tanks(plant: &Plant, tables: &mut Tables) -> Option<bool> {
    // Past the groups there is no level.
    let mut sizes = [0u8; 8];
    for (size, requirement) in
        sizes.iter_mut().zip(&plant.group_requirement[..usize::from(plant.groups)])
    {
        *size = tables.sizes[usize::from(*requirement) & 7];
    }
    let mut shared = 0;
    let tanks = plant.tank_group.iter().zip(&plant.tank_level).take(usize::from(plant.tanks));
    for (tank, (&group, &level)) in tanks.enumerate() {
        let g = usize::from(group);
        if g >= 8 || level >= sizes[g] {
            return None;
        }
        let v = usize::from(level) & 15;
        shared |= (tables.places[g] >> v) & 1;
        tables.places[g] |= 1 << v;
        tables.tank_at[g * 16 + v] = tank as u8;
    }
    Some(shared != 0)
}

/// 10 or 12, the lowest that some task breaks, or 0. A task's eight bytes of
/// rights are tested as one number.
#[inline(always)]
fn tasks_number(plant: &Plant) -> u8 {
    let requirement_bits = requirement_bits(plant);
    let past_groups = u64::MAX.checked_shl(8 * u32::from(plant.groups)).unwrap_or(0);
    let no_right = past_groups | (0xf8 * ONES);
    let mut wrong = 0;
    let mut unnamed = 0;
    for t in 0..usize::from(plant.tasks) {
        let names = plant.task_requirements[t];
        let rights = rights_of(plant, t);
        let named = nonzero(requirement_bits & (u64::from(names) * ONES));
        wrong |= (rights & no_right) | (u64::from(names) >> plant.requirements);
        unnamed |= nonzero(rights) & !named;
    }
    if wrong != 0 {
        10
    } else if unnamed != 0 {
        12
    } else {
        0
    }
}

/// Byte g has the bit of the requirement of group g.
#[inline(always)]
fn requirement_bits(plant: &Plant) -> u64 {
    let groups = &plant.group_requirement[..usize::from(plant.groups)];
    groups.iter().rev().fold(0, |bits, &requirement| (bits << 8) | (1 << (requirement & 7)))
}

#[inline(always)]
fn any_skid_wrong(plant: &Plant) -> bool {
    let skids = &plant.skid_tasks[..usize::from(plant.skids)];
    skids.iter().any(|&may| u32::from(may) >> plant.tasks != 0)
}
