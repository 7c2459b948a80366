//! The words of the plant, the plant as a record keeps it, and those opening
//! checks that a record can break as well as a file (3 and 7 to 12).

use crate::lattice::Lattice;

/// The six kinds of item, in the header's order.
pub const LATTICES: usize = 0;
pub const REQUIREMENTS: usize = 1;
pub const GROUPS: usize = 2;
pub const TANKS: usize = 3;
pub const TASKS: usize = 4;
pub const SKIDS: usize = 5;

/// "lattices (1 to 8), requirements (1 to 8), groups (1 to 8), tanks (1 to 64),
/// tasks (1 to 16) and skids (1 to 8)"; the least count is 1 for each kind.
pub const MOST: [usize; 6] = [8, 8, 8, 64, 16, 8];

/// "Draw, return and sample are rights 0, 1 and 2, and there are no others."
pub const RIGHTS: usize = 3;

/// The plant within a record. This is the memory layout that a C program sees:
/// the order and widths of the fields must not change.
#[repr(C)]
#[derive(Clone, Copy, PartialEq, Eq, Debug)]
pub struct Plant {
    pub lattices: u8,
    pub requirements: u8,
    pub groups: u8,
    pub tanks: u8,
    pub tasks: u8,
    pub skids: u8,
    /// The number n of levels of each lattice.
    pub lattice_sizes: [u8; 8],
    /// Set i of lattice l at l * 16 + i.
    pub lattice_sets: [u16; 128],
    /// The lattice of each requirement.
    pub requirement_lattice: [u8; 8],
    /// The requirement of each group.
    pub group_requirement: [u8; 8],
    /// The group of each tank.
    pub tank_group: [u8; 64],
    /// The level of each tank.
    pub tank_level: [u8; 64],
    /// The requirements that each task names, bit d for requirement d.
    pub task_requirements: [u8; 16],
    /// The rights that task t names on group g at t * 8 + g, bit r for right r.
    pub task_rights: [u8; 128],
    /// The tasks that each skid may run, bit t for task t.
    pub skid_tasks: [u16; 8],
}

/// Reading a plant.
impl Plant {
    /// The plant of "a record of zeros".
    pub fn zeros() -> Plant {
        Plant {
            lattices: 0,
            requirements: 0,
            groups: 0,
            tanks: 0,
            tasks: 0,
            skids: 0,
            lattice_sizes: [0; 8],
            lattice_sets: [0; 128],
            requirement_lattice: [0; 8],
            group_requirement: [0; 8],
            tank_group: [0; 64],
            tank_level: [0; 64],
            task_requirements: [0; 16],
            task_rights: [0; 128],
            skid_tasks: [0; 8],
        }
    }

    /// The six counts, in the header's order.
    pub fn counts(&self) -> [usize; 6] {
        [self.lattices, self.requirements, self.groups, self.tanks, self.tasks, self.skids]
            .map(usize::from)
    }

    /// How many items of a kind there are.
    pub fn count(&self, kind: usize) -> usize {
        self.counts()[kind]
    }

    /// "Items of each kind are numbered from 0."
    pub fn has(&self, kind: usize, number: usize) -> bool {
        number < self.count(kind)
    }

    /// Lattice l, taken out of the plant.
    pub fn lattice_numbered(&self, l: usize) -> Lattice {
        let mut sets = [0; 16];
        sets.copy_from_slice(&self.lattice_sets[l * 16..l * 16 + 16]);
        Lattice { n: usize::from(self.lattice_sizes[l]), sets }
    }

    /// The lattice of a requirement.
    pub fn lattice_of_requirement(&self, requirement: usize) -> Lattice {
        self.lattice_numbered(usize::from(self.requirement_lattice[requirement]))
    }

    /// "the lattice of that group's requirement".
    pub fn lattice_of_group(&self, group: usize) -> Lattice {
        self.lattice_of_requirement(self.requirement_of(group))
    }

    /// The requirement of a group.
    pub fn requirement_of(&self, group: usize) -> usize {
        usize::from(self.group_requirement[group])
    }

    /// The group of a tank.
    pub fn group_of(&self, tank: usize) -> usize {
        usize::from(self.tank_group[tank])
    }

    /// The level of a tank.
    pub fn level_of(&self, tank: usize) -> usize {
        usize::from(self.tank_level[tank])
    }

    /// The tanks of a group, in rising order. "A group may have no tank."
    pub fn tanks_of(&self, group: usize) -> Vec<usize> {
        (0..self.count(TANKS)).filter(|&tank| self.group_of(tank) == group).collect()
    }

    /// "a byte whose bit d names requirement d".
    pub fn names_requirement(&self, task: usize, requirement: usize) -> bool {
        (self.task_requirements[task] >> requirement) & 1 == 1
    }

    /// "byte g having bit r set where the task names right r on group g".
    pub fn names_right(&self, task: usize, group: usize, right: usize) -> bool {
        (self.task_rights[task * 8 + group] >> right) & 1 == 1
    }

    /// Whether the task names any right on the group.
    pub fn needs(&self, task: usize, group: usize) -> bool {
        self.task_rights[task * 8 + group] != 0
    }

    /// The groups "on which the task names a right".
    pub fn needed_groups(&self, task: usize) -> Vec<usize> {
        (0..self.count(GROUPS)).filter(|&group| self.needs(task, group)).collect()
    }

    /// "bit t set where it may run task t".
    pub fn may_run(&self, skid: usize, task: usize) -> bool {
        (self.skid_tasks[skid] >> task) & 1 == 1
    }
}

/// Checks 3 and 7 to 12 as far as a record can break them. Each is over all
/// items within the counts, and each assumes that the ones before it hold,
/// because it uses the numbers that they have tested as places.
impl Plant {
    /// "3: a count outside its range."
    pub fn breaks_3(&self) -> bool {
        (0..6).any(|kind| self.count(kind) < 1 || self.count(kind) > MOST[kind])
    }

    /// "7: a lattice record breaks its layout." The zero byte is not kept here.
    pub fn breaks_7(&self) -> bool {
        self.some_lattice(|lattice| lattice.breaks_layout())
    }

    /// "8: not an order."
    pub fn breaks_8(&self) -> bool {
        self.some_lattice(|lattice| !lattice.is_order())
    }

    /// "9: an order but no lattice."
    pub fn breaks_9(&self) -> bool {
        self.some_lattice(|lattice| !lattice.has_joins_and_meets())
    }

    /// "10: in the other records, a number or bit at or past its count, a level
    /// at or past n, a right bit 3 to 7, any right on a group at or past the
    /// count". The zero bytes are not kept here.
    pub fn breaks_10(&self) -> bool {
        self.some_number_past_its_count()
            || self.some_bit_past_its_count()
            || self.some_level_past_n()
            || self.some_right_bit_3_to_7()
            || self.some_right_on_a_group_past_the_count()
    }

    /// "11: two tanks of one group at one level."
    pub fn breaks_11(&self) -> bool {
        let tanks = self.count(TANKS);
        (0..tanks).any(|a| (0..tanks).any(|b| a != b && self.same_place(a, b)))
    }

    /// "12: a task names a right on a group whose requirement it doesn't name."
    pub fn breaks_12(&self) -> bool {
        (0..self.count(TASKS)).any(|task| {
            self.needed_groups(task)
                .iter()
                .any(|&group| !self.names_requirement(task, self.requirement_of(group)))
        })
    }

    fn some_lattice(&self, broken: impl Fn(&Lattice) -> bool) -> bool {
        (0..self.count(LATTICES)).any(|l| broken(&self.lattice_numbered(l)))
    }

    /// A requirement's lattice, a group's requirement or a tank's group.
    fn some_number_past_its_count(&self) -> bool {
        let past = |numbers: &[u8], owner: usize, named: usize| {
            (0..self.count(owner)).any(|i| !self.has(named, usize::from(numbers[i])))
        };
        past(&self.requirement_lattice, REQUIREMENTS, LATTICES)
            || past(&self.group_requirement, GROUPS, REQUIREMENTS)
            || past(&self.tank_group, TANKS, GROUPS)
    }

    /// A bit of a task that names no requirement, or of a skid that names no task.
    fn some_bit_past_its_count(&self) -> bool {
        let requirement_bit =
            |task: usize| (self.count(REQUIREMENTS)..8).any(|d| self.names_requirement(task, d));
        let task_bit = |skid: usize| (self.count(TASKS)..16).any(|t| self.may_run(skid, t));
        (0..self.count(TASKS)).any(requirement_bit) || (0..self.count(SKIDS)).any(task_bit)
    }

    /// "its level in the lattice of that group's requirement". Called after the
    /// numbers have been tested, so the group and its lattice are there.
    fn some_level_past_n(&self) -> bool {
        (0..self.count(TANKS))
            .any(|tank| !self.lattice_of_group(self.group_of(tank)).has_level(self.level_of(tank)))
    }

    /// In all eight bytes of each task, those of groups past the count too.
    fn some_right_bit_3_to_7(&self) -> bool {
        (0..self.count(TASKS)).any(|task| {
            (0..8).any(|group| (RIGHTS..8).any(|bit| self.names_right(task, group, bit)))
        })
    }

    fn some_right_on_a_group_past_the_count(&self) -> bool {
        (0..self.count(TASKS))
            .any(|task| (self.count(GROUPS)..8).any(|group| self.needs(task, group)))
    }

    /// Two tanks are of one group and at one level.
    fn same_place(&self, a: usize, b: usize) -> bool {
        self.group_of(a) == self.group_of(b) && self.level_of(a) == self.level_of(b)
    }
}
