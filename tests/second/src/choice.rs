//! The nearest tanks of a group under a level, and the choice among them.
//!
//! The choice depends on the plant alone, so the monitor and the history both
//! use it. The plant has passed the opening checks, and the level is in the
//! lattice of the group's requirement.

use crate::plant::Plant;

/// The tank's level is at or under level v.
pub fn tank_at_or_under(plant: &Plant, tank: usize, v: usize) -> bool {
    plant.lattice_of_group(plant.group_of(tank)).at_or_under(plant.level_of(tank), v)
}

/// Tank a lies strictly above tank b of the same group.
fn tank_strictly_above(plant: &Plant, a: usize, b: usize) -> bool {
    plant.lattice_of_group(plant.group_of(b)).strictly_above(plant.level_of(a), plant.level_of(b))
}

/// "A tank is nearest for a level v when it is at or under v and no tank of its
/// group lies strictly above it and at or under v".
pub fn nearest(plant: &Plant, tank: usize, v: usize) -> bool {
    let better = |&other: &usize| {
        tank_strictly_above(plant, other, tank) && tank_at_or_under(plant, other, v)
    };
    tank_at_or_under(plant, tank, v) && !plant.tanks_of(plant.group_of(tank)).iter().any(better)
}

/// All nearest tanks of a group for a level v, in rising order.
pub fn nearest_tanks(plant: &Plant, group: usize, v: usize) -> Vec<usize> {
    plant.tanks_of(group).into_iter().filter(|&tank| nearest(plant, tank, v)).collect()
}

/// "The choice is the nearest tank with the lowest number."
pub fn choice(plant: &Plant, group: usize, v: usize) -> Option<usize> {
    nearest_tanks(plant, group, v).into_iter().min()
}

/// Some tank of the group is at or under level v; condition 28 denies it.
pub fn some_tank_at_or_under(plant: &Plant, group: usize, v: usize) -> bool {
    plant.tanks_of(group).into_iter().any(|tank| tank_at_or_under(plant, tank, v))
}
