//! The monitor: one record, the test of it, and the four calls.
//!
//! "Where several conditions of a call hold, the one written first decides,
//! over all groups before the next. After a refusal the record and buffers are
//! as given".

use crate::choice::{choice, some_tank_at_or_under};
use crate::plant::{Plant, REQUIREMENTS, RIGHTS, SKIDS, TANKS, TASKS};

/// "a level, or 255 for unset"
pub const UNSET: u8 = 255;

/// "a running task, or 255 for none"; "a chosen tank, or 255"
pub const NONE: u8 = 255;

/// "The monitor is one record: the plant, and three changing parts." This is
/// the memory layout that a C program sees: it must not change.
#[repr(C)]
#[derive(Clone, Copy, PartialEq, Eq, Debug)]
pub struct Record {
    pub plant: Plant,
    /// The level of skid s, task t and requirement d at (s * 16 + t) * 8 + d.
    pub levels: [u8; 1024],
    /// The running task of each skid.
    pub running: [u8; 8],
    /// The chosen tank of skid s and group g at s * 8 + g.
    pub chosen: [u8; 64],
}

impl Record {
    /// "Opening an accepted file gives all 255; this is the fresh monitor".
    pub fn fresh(plant: Plant) -> Record {
        Record { plant, levels: [UNSET; 1024], running: [NONE; 8], chosen: [NONE; 64] }
    }

    /// "a refused opening hands back a record of zeros".
    pub fn zeros() -> Record {
        Record { plant: Plant::zeros(), levels: [0; 1024], running: [0; 8], chosen: [0; 64] }
    }

    /// "For each skid, task and requirement there is a level, or 255 for unset."
    pub fn level(&self, skid: usize, task: usize, requirement: usize) -> u8 {
        self.levels[(skid * 16 + task) * 8 + requirement]
    }

    /// "For each skid and group there is a chosen tank, or 255."
    pub fn chosen(&self, skid: usize, group: usize) -> u8 {
        self.chosen[skid * 8 + group]
    }

    /// "A skid holds right r on tank o when its running task names r on o's
    /// group and o is the chosen tank there." The record passes test 20.
    pub fn holds(&self, skid: usize, tank: usize, right: usize) -> bool {
        let task = self.running[skid];
        let group = self.plant.group_of(tank);
        task != NONE
            && self.plant.names_right(usize::from(task), group, right)
            && usize::from(self.chosen(skid, group)) == tank
    }

    /// All rights held, as skid, tank and right, "rising in that order".
    pub fn held(&self) -> Vec<(u8, u8, u8)> {
        let mut held = Vec::new();
        for skid in 0..self.plant.count(SKIDS) {
            for tank in 0..self.plant.count(TANKS) {
                for right in 0..RIGHTS {
                    if self.holds(skid, tank, right) {
                        held.push((skid as u8, tank as u8, right as u8));
                    }
                }
            }
        }
        held
    }
}

/// "Every call on a monitor first tests the record." True when the record
/// passes, false when 20 refuses it.
pub fn test20(record: &Record) -> bool {
    !plant_breaks_3_or_7_to_12(&record.plant)
        && !some_level_wrong(record)
        && !some_running_task_wrong(record)
        && !some_chosen_tank_wrong(record)
}

/// "its plant, read in the items within the counts, breaks 3 or 7 to 12".
fn plant_breaks_3_or_7_to_12(plant: &Plant) -> bool {
    plant.breaks_3()
        || plant.breaks_7()
        || plant.breaks_8()
        || plant.breaks_9()
        || plant.breaks_10()
        || plant.breaks_11()
        || plant.breaks_12()
}

/// "for items within the counts, a stored level is neither unset nor in its
/// lattice".
fn some_level_wrong(record: &Record) -> bool {
    let plant = &record.plant;
    let wrong = |skid: usize, task: usize, requirement: usize| {
        let level = record.level(skid, task, requirement);
        let lattice = plant.lattice_of_requirement(requirement);
        level != UNSET && !lattice.has_level(usize::from(level))
    };
    (0..plant.count(SKIDS)).any(|skid| {
        (0..plant.count(TASKS))
            .any(|task| (0..plant.count(REQUIREMENTS)).any(|d| wrong(skid, task, d)))
    })
}

/// "a running task is neither none nor one the skid may run".
fn some_running_task_wrong(record: &Record) -> bool {
    let plant = &record.plant;
    let may = |skid: usize, task: usize| plant.has(TASKS, task) && plant.may_run(skid, task);
    (0..plant.count(SKIDS))
        .any(|skid| record.running[skid] != NONE && !may(skid, usize::from(record.running[skid])))
}

/// "the chosen tank where the running task has a right is not of that group".
/// Called after the running tasks have been tested.
fn some_chosen_tank_wrong(record: &Record) -> bool {
    let plant = &record.plant;
    let wrong = |skid: usize, group: usize| {
        let tank = usize::from(record.chosen(skid, group));
        !plant.has(TANKS, tank) || plant.group_of(tank) != group
    };
    (0..plant.count(SKIDS)).filter(|&skid| record.running[skid] != NONE).any(|skid| {
        let task = usize::from(record.running[skid]);
        plant.needed_groups(task).iter().any(|&group| wrong(skid, group))
    })
}

/// One call: "a kind (0 set, 1 start, 2 stop, 3 gate) and four bytes in the
/// order of the call's arguments, unused ones ignored". Test 20 comes first.
pub fn call(record: &mut Record, kind: u8, args: [u8; 4]) -> u8 {
    if !test20(record) {
        return 20;
    }
    step(record, kind, args)
}

/// One call on a record that 20 does not refuse; "an unknown kind answers 32
/// and changes nothing".
pub fn step(record: &mut Record, kind: u8, args: [u8; 4]) -> u8 {
    let [a, b, c, d] = args.map(usize::from);
    match kind {
        0 => set(record, a, b, c, d),
        1 => start(record, a, b),
        2 => stop(record, a),
        3 => gate(record, a, b, c),
        _ => 32,
    }
}

/// Set (skid, task, requirement, level). "The level alone changes."
fn set(record: &mut Record, skid: usize, task: usize, requirement: usize, level: usize) -> u8 {
    let number = set_number(&record.plant, skid, task, requirement, level);
    if number == 0 {
        record.levels[(skid * 16 + task) * 8 + requirement] = level as u8;
    }
    number
}

/// "21: no such skid. 22: no such task. 23: no such requirement. 24: no such
/// level; 255 cannot be set. The skid need not be allowed the task."
///
/// No lattice has more than 16 levels, so 255 is never one of them.
fn set_number(plant: &Plant, skid: usize, task: usize, requirement: usize, level: usize) -> u8 {
    if !plant.has(SKIDS, skid) {
        21
    } else if !plant.has(TASKS, task) {
        22
    } else if !plant.has(REQUIREMENTS, requirement) {
        23
    } else if !plant.lattice_of_requirement(requirement).has_level(level) {
        24
    } else {
        0
    }
}

/// Start (skid, task).
fn start(record: &mut Record, skid: usize, task: usize) -> u8 {
    let number = start_number(record, skid, task);
    if number == 0 {
        start_accepted(record, skid, task);
    }
    number
}

/// The conditions of start, in their order.
fn start_number(record: &Record, skid: usize, task: usize) -> u8 {
    let plant = &record.plant;
    if !plant.has(SKIDS, skid) {
        21
    } else if !plant.has(TASKS, task) {
        22
    } else if !plant.may_run(skid, task) {
        25
    } else if record.running[skid] != NONE {
        26
    } else if some_needed_level_unset(record, skid, task) {
        27
    } else if some_needed_tank_wanting(record, skid, task) {
        28
    } else {
        0
    }
}

/// "27: for some group on which the task names a right, that group's
/// requirement is unset for this skid and task."
fn some_needed_level_unset(record: &Record, skid: usize, task: usize) -> bool {
    let plant = &record.plant;
    let unset = |&group: &usize| record.level(skid, task, plant.requirement_of(group)) == UNSET;
    plant.needed_groups(task).iter().any(unset)
}

/// "28: for such a group no tank is at or under its level." Called when no
/// needed level is unset.
fn some_needed_tank_wanting(record: &Record, skid: usize, task: usize) -> bool {
    let plant = &record.plant;
    let wanting =
        |&group: &usize| !some_tank_at_or_under(plant, group, level_for(record, skid, task, group));
    plant.needed_groups(task).iter().any(wanting)
}

/// The level under which a tank of the group is sought for this skid and task.
fn level_for(record: &Record, skid: usize, task: usize, group: usize) -> usize {
    usize::from(record.level(skid, task, record.plant.requirement_of(group)))
}

/// "Then the task runs, those groups get their choice, the skid's other groups
/// 255." The whole row of eight choices is written.
fn start_accepted(record: &mut Record, skid: usize, task: usize) {
    for group in 0..8 {
        record.chosen[skid * 8 + group] = NONE;
    }
    for group in record.plant.needed_groups(task) {
        let tank = choice(&record.plant, group, level_for(record, skid, task, group));
        record.chosen[skid * 8 + group] = tank.expect("28 was tested") as u8;
    }
    record.running[skid] = task as u8;
}

/// Stop (skid). "21. Running task and all choices of the skid become 255; a
/// skid that runs nothing is accepted too."
fn stop(record: &mut Record, skid: usize) -> u8 {
    if !record.plant.has(SKIDS, skid) {
        return 21;
    }
    record.running[skid] = NONE;
    for group in 0..8 {
        record.chosen[skid * 8 + group] = NONE;
    }
    0
}

/// Gate (skid, tank, right). "21. 29: no such tank. 30: right over 2. It
/// returns 0 where the skid holds the right, else 33. Nothing changes."
fn gate(record: &Record, skid: usize, tank: usize, right: usize) -> u8 {
    let plant = &record.plant;
    if !plant.has(SKIDS, skid) {
        21
    } else if !plant.has(TANKS, tank) {
        29
    } else if right >= RIGHTS {
        30
    } else if record.holds(skid, tank, right) {
        0
    } else {
        33
    }
}
