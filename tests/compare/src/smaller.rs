//! A plant file with fewer items or fewer levels, for the shrinker. What refers
//! to an item or a level that is left out is left out too where it can be, and
//! numbers past it move down by one, in the file and in the requests. The
//! outcome need not be a plant that opening accepts.

use crate::input::Input;
use permit_monitor::gen::plants::{Draft, Layout};
use permit_monitor::opening::{header_number, WIDTHS};
use permit_monitor::plant::{GROUPS, LATTICES, REQUIREMENTS, SKIDS, TANKS, TASKS};
use permit_monitor::section;
use std::ops::Range;

/// How many items the plant has in all, where its header can be read.
pub fn items(input: &Input) -> usize {
    match header_number(&input.plant) {
        0 => (0..6).map(|kind| usize::from(input.plant[1 + kind])).sum(),
        _ => 0,
    }
}

/// The input without these items, counted over all kinds, and without gaps
/// between the sections.
pub fn without_items(input: &Input, range: Range<usize>) -> Input {
    let mut smaller = Smaller::of(input);
    for number in range.rev() {
        let (kind, item) = smaller.item_numbered(number);
        smaller.leave_out(kind, item);
    }
    smaller.input(input)
}

/// How many levels the plant's lattices have in all. None are counted where the
/// lattices break their layout.
pub fn levels(input: &Input) -> usize {
    match items(input) {
        0 => 0,
        _ => {
            let sizes = section(&input.plant, LATTICES).chunks(34).map(|l| usize::from(l[0]));
            sizes.clone().all(|n| n <= 16).then(|| sizes.sum()).unwrap_or(0)
        }
    }
}

/// The input without these levels, counted over all lattices.
pub fn without_levels(input: &Input, range: Range<usize>) -> Input {
    let mut smaller = Smaller::of(input);
    for number in range.rev() {
        let (lattice, level) = smaller.level_numbered(number);
        smaller.leave_out_level(lattice, level);
    }
    smaller.input(input)
}

/// The records of a plant file, and the requests beside it.
struct Smaller {
    draft: Draft,
    requests: Vec<u8>,
}

impl Smaller {
    fn of(input: &Input) -> Smaller {
        let plant = &input.plant;
        let draft = Draft {
            lattices: records(plant, LATTICES),
            requirements: records(plant, REQUIREMENTS),
            groups: records(plant, GROUPS),
            tanks: records(plant, TANKS),
            tasks: records(plant, TASKS),
            skids: records(plant, SKIDS),
        };
        Smaller { draft, requests: input.requests.clone() }
    }

    fn input(self, input: &Input) -> Input {
        let plant = Layout::packed().file(&self.draft);
        Input { plant, requests: self.requests, ..input.clone() }
    }

    /// The kind of the item with this number over all kinds, and its own number.
    fn item_numbered(&self, number: usize) -> (usize, usize) {
        numbered(number, (0..6).map(|kind| self.draft.count(kind)))
    }

    fn level_numbered(&self, number: usize) -> (usize, usize) {
        numbered(number, self.draft.lattices.iter().map(|lattice| usize::from(lattice[0])))
    }

    fn leave_out(&mut self, kind: usize, item: usize) {
        let draft = &mut self.draft;
        match kind {
            LATTICES => {
                draft.lattices.remove(item);
                draft.requirements.iter_mut().for_each(|record| move_down(&mut record[0], item));
            }
            REQUIREMENTS => {
                draft.requirements.remove(item);
                draft.groups.iter_mut().for_each(|record| move_down(&mut record[0], item));
                draft
                    .tasks
                    .iter_mut()
                    .for_each(|task| task[0] = without_bit(task[0].into(), item) as u8);
            }
            GROUPS => self.leave_out_group(item),
            TANKS => {
                draft.tanks.remove(item);
            }
            TASKS => {
                draft.tasks.remove(item);
                for skid in &mut draft.skids {
                    *skid = without_bit(u16::from_le_bytes(*skid), item).to_le_bytes();
                }
            }
            _ => {
                draft.skids.remove(item);
            }
        }
        self.renumber_arguments(kind, item);
    }

    /// A group's tanks go with it.
    fn leave_out_group(&mut self, group: usize) {
        self.draft.groups.remove(group);
        self.draft.tanks.retain(|tank| usize::from(tank[0]) != group);
        self.draft.tanks.iter_mut().for_each(|tank| move_down(&mut tank[0], group));
        for task in &mut self.draft.tasks {
            task.copy_within(2 + group + 1.., 2 + group);
            task[9] = 0;
        }
    }

    /// The place in a request, by its kind, at which items of this kind stand.
    fn renumber_arguments(&mut self, kind: usize, item: usize) {
        for request in self.requests.chunks_exact_mut(5) {
            match (kind, request[0]) {
                (SKIDS, 0..=3) => move_down(&mut request[1], item),
                (TASKS, 0 | 1) | (TANKS, 3) => move_down(&mut request[2], item),
                (REQUIREMENTS, 0) => move_down(&mut request[3], item),
                _ => (),
            }
        }
    }

    /// The tanks at the level go with it.
    fn leave_out_level(&mut self, lattice: usize, level: usize) {
        let levels = lattice_without(&self.draft.lattices[lattice], level);
        self.draft.lattices[lattice] = levels;
        let requirements = self.draft.requirements.clone();
        let groups = self.draft.groups.clone();
        let of_lattice = |requirement: u8| {
            requirements.get(usize::from(requirement)).is_some_and(|r| usize::from(r[0]) == lattice)
        };
        let judged =
            |tank: &[u8; 2]| groups.get(usize::from(tank[0])).is_some_and(|g| of_lattice(g[0]));
        self.draft.tanks.retain(|tank| !judged(tank) || usize::from(tank[1]) != level);
        self.draft
            .tanks
            .iter_mut()
            .filter(|tank| judged(tank))
            .for_each(|tank| move_down(&mut tank[1], level));
        for request in self.requests.chunks_exact_mut(5).filter(|r| r[0] == 0 && of_lattice(r[3])) {
            move_down(&mut request[4], level);
        }
    }
}

/// The records of a section; the header can be read.
fn records<const WIDTH: usize>(plant: &[u8], kind: usize) -> Vec<[u8; WIDTH]> {
    assert_eq!(WIDTH, WIDTHS[0][kind]);
    let record = |bytes: &[u8]| bytes.try_into().expect("a record has its section's width");
    section(plant, kind).chunks_exact(WIDTH).map(record).collect()
}

/// Which of several lists a number over all of them falls into, and where.
fn numbered(number: usize, lengths: impl Iterator<Item = usize>) -> (usize, usize) {
    let mut left = number;
    for (list, length) in lengths.enumerate() {
        if left < length {
            return (list, left);
        }
        left -= length;
    }
    unreachable!("the number is under the sum of the lengths")
}

/// A number past the one that is left out.
fn move_down(number: &mut u8, left_out: usize) {
    if usize::from(*number) > left_out && *number != 255 {
        *number -= 1;
    }
}

/// The bits without this one, those past it moved down.
fn without_bit(bits: u16, left_out: usize) -> u16 {
    let under = bits & ((1 << left_out) - 1);
    under | ((bits >> left_out) >> 1) << left_out
}

/// A lattice record without one of its levels.
fn lattice_without(record: &[u8; 34], level: usize) -> [u8; 34] {
    let mut smaller = [0; 34];
    smaller[0] = record[0] - 1;
    smaller[1] = record[1];
    let sets = record[2..].chunks_exact(2).map(|set| u16::from_le_bytes([set[0], set[1]]));
    let left = sets.enumerate().filter(|(i, _)| *i != level).map(|(_, set)| set);
    for (place, set) in smaller[2..].chunks_exact_mut(2).zip(left) {
        place.copy_from_slice(&without_bit(set, level).to_le_bytes());
    }
    smaller
}
