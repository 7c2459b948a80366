//! Accepted plant files of all shapes: a draft holds the records, a layout says
//! where the sections stand.

use super::lattices::lattice_of_size;
use super::rng::Rng;
use crate::opening::{HEADER, LONGEST, WIDTHS};
use crate::plant::{GROUPS, LATTICES, MOST, REQUIREMENTS, SKIDS, TANKS, TASKS};

/// The records of a plant file as bytes, by section. The counts are the numbers
/// of records, whether they are in range or not.
#[derive(Clone, Debug)]
pub struct Draft {
    pub lattices: Vec<[u8; 34]>,
    pub requirements: Vec<[u8; 2]>,
    pub groups: Vec<[u8; 2]>,
    pub tanks: Vec<[u8; 2]>,
    pub tasks: Vec<[u8; 10]>,
    pub skids: Vec<[u8; 2]>,
}

impl Draft {
    /// The bytes of one section.
    pub fn section(&self, kind: usize) -> Vec<u8> {
        match kind {
            LATTICES => self.lattices.concat(),
            REQUIREMENTS => self.requirements.concat(),
            GROUPS => self.groups.concat(),
            TANKS => self.tanks.concat(),
            TASKS => self.tasks.concat(),
            SKIDS => self.skids.concat(),
            _ => unreachable!("there are six sections"),
        }
    }

    /// The count of one kind, as the header will say it.
    pub fn count(&self, kind: usize) -> usize {
        self.section(kind).len() / WIDTHS[0][kind]
    }

    /// The lattice record of a group's requirement.
    fn lattice_of_group(&self, group: usize) -> &[u8; 34] {
        let requirement = usize::from(self.groups[group][0]);
        let lattice = usize::from(self.requirements[requirement][0]);
        &self.lattices[lattice]
    }

    /// The number of levels of a group's lattice.
    pub fn levels_of_group(&self, group: usize) -> usize {
        usize::from(self.lattice_of_group(group)[0])
    }

    /// Whether the place is at the top of its lattice: the set there has one bit.
    fn at_top(&self, [group, level]: &[u8; 2]) -> bool {
        let lattice = self.lattice_of_group(usize::from(*group));
        let at = 2 + 2 * usize::from(*level);
        (lattice[at].count_ones() + lattice[at + 1].count_ones()) == 1
    }

    /// The places (group, level) at which no tank stands.
    pub fn free_places(&self) -> Vec<[u8; 2]> {
        let mut free = Vec::new();
        for group in 0..self.groups.len() {
            for level in 0..self.levels_of_group(group) {
                let place = [group as u8, level as u8];
                if !self.tanks.contains(&place) {
                    free.push(place);
                }
            }
        }
        free
    }
}

/// How many items a plant has.
#[derive(Clone, Copy, PartialEq, Eq, Debug)]
pub enum Size {
    Small,
    Medium,
    Any,
    Maximum,
}

pub const SIZES: [Size; 4] = [Size::Small, Size::Medium, Size::Any, Size::Maximum];

impl Size {
    /// A count of a kind.
    fn count(self, rng: &mut Rng, kind: usize) -> usize {
        match self {
            Size::Small => rng.between(1, [2, 2, 2, 6, 2, 2][kind]),
            Size::Medium => rng.between(1, [4, 4, 5, 24, 5, 4][kind]),
            Size::Any => rng.between(1, MOST[kind]),
            Size::Maximum => MOST[kind],
        }
    }

    /// A number n of levels.
    fn levels(self, rng: &mut Rng) -> usize {
        match self {
            Size::Small => rng.between(1, 5),
            Size::Medium => rng.between(2, 9),
            Size::Any => rng.between(1, 16),
            Size::Maximum => 16,
        }
    }
}

/// The records of a plant that opening accepts.
pub fn draft(rng: &mut Rng, size: Size) -> Draft {
    let mut draft = Draft {
        lattices: Vec::new(),
        requirements: Vec::new(),
        groups: Vec::new(),
        tanks: Vec::new(),
        tasks: Vec::new(),
        skids: Vec::new(),
    };
    for _ in 0..size.count(rng, LATTICES) {
        let n = size.levels(rng);
        draft.lattices.push(lattice_record(&lattice_of_size(rng, n)));
    }
    for _ in 0..size.count(rng, REQUIREMENTS) {
        draft.requirements.push([rng.below(draft.lattices.len()) as u8, 0]);
    }
    for _ in 0..size.count(rng, GROUPS) {
        draft.groups.push([rng.below(draft.requirements.len()) as u8, 0]);
    }
    let tanks = size.count(rng, TANKS);
    add_tanks(rng, &mut draft, tanks);
    add_tasks_and_skids(rng, &mut draft, size);
    draft
}

/// A lattice record: n, a zero byte, and the sets, low byte first.
pub fn lattice_record(lattice: &crate::lattice::Lattice) -> [u8; 34] {
    let mut record = [0; 34];
    record[0] = lattice.n as u8;
    for (i, set) in lattice.sets.iter().enumerate() {
        record[2 + 2 * i..4 + 2 * i].copy_from_slice(&set.to_le_bytes());
    }
    record
}

/// As many tanks as there are places for, in an order that follows neither
/// groups nor levels. Sometimes a group is left without tanks, and sometimes no
/// tank stands at a top, so that several can be nearest for it.
fn add_tanks(rng: &mut Rng, draft: &mut Draft, count: usize) {
    let mut free = draft.free_places();
    rng.shuffle(&mut free);
    let empty = rng.below(draft.groups.len()) as u8;
    if rng.chance(1, 6) {
        leave_out(&mut free, count, |place| place[0] == empty);
    }
    if rng.chance(1, 2) {
        leave_out(&mut free, count, |place| draft.at_top(place));
    }
    free.truncate(count);
    draft.tanks = free;
}

/// Leaves these places out if there are enough others.
fn leave_out(free: &mut Vec<[u8; 2]>, count: usize, which: impl Fn(&[u8; 2]) -> bool) {
    if free.iter().filter(|place| !which(place)).count() >= count {
        free.retain(|place| !which(place));
    }
}

/// Tasks that need few or many groups, and skids that may run most of them.
fn add_tasks_and_skids(rng: &mut Rng, draft: &mut Draft, size: Size) {
    let tasks = size.count(rng, TASKS);
    for _ in 0..tasks {
        let task = task_record(rng, draft);
        draft.tasks.push(task);
    }
    for _ in 0..size.count(rng, SKIDS) {
        let mut may = 0u16;
        for task in 0..tasks {
            may |= u16::from(rng.chance(3, 4)) << task;
        }
        draft.skids.push(may.to_le_bytes());
    }
}

/// A task that names some requirements, and rights on some of their groups.
fn task_record(rng: &mut Rng, draft: &Draft) -> [u8; 10] {
    let mut task = [0; 10];
    for requirement in 0..draft.requirements.len() {
        task[0] |= u8::from(rng.chance(5, 6)) << requirement;
    }
    let density = rng.between(1, 8);
    for group in 0..draft.groups.len() {
        let named = (task[0] >> draft.groups[group][0]) & 1 == 1;
        if named && rng.chance(density, 8) {
            task[2 + group] = rng.between(1, 7) as u8;
        }
    }
    task
}

/// Where the sections stand: their order in the file, and what stands before
/// each of them and after the last.
#[derive(Clone, Debug)]
pub struct Layout {
    pub order: [usize; 6],
    pub gaps: [Vec<u8>; 7],
}

impl Layout {
    /// Sections in the header's order from byte 24, no gaps.
    pub fn packed() -> Layout {
        Layout { order: [0, 1, 2, 3, 4, 5], gaps: Default::default() }
    }

    /// No gaps, and one of the 720 orders of the sections, numbered from 0.
    pub fn ordered(number: usize) -> Layout {
        let mut left = vec![0, 1, 2, 3, 4, 5];
        let mut rest = number;
        let order = [6, 5, 4, 3, 2, 1].map(|choices| {
            let kind = left.remove(rest % choices);
            rest /= choices;
            kind
        });
        Layout { order, gaps: Default::default() }
    }

    /// Any order; many sections touch, others have gaps of any content; now and
    /// then the file has the greatest length.
    pub fn random(rng: &mut Rng, draft: &Draft) -> Layout {
        let mut layout = Layout::packed();
        rng.shuffle(&mut layout.order);
        for gap in 0..7 {
            let length = if rng.chance(1, 2) { 0 } else { rng.between(1, 9) };
            layout.gaps[gap] = rng.bytes(length);
        }
        if rng.chance(1, 10) {
            layout.fill(rng, draft, LONGEST);
        }
        layout
    }

    /// One gap more, so that the file has exactly this length.
    pub fn fill(&mut self, rng: &mut Rng, draft: &Draft, length: usize) {
        let so_far = self.file(draft).len();
        let gap = rng.below(7);
        let more = rng.bytes(length - so_far);
        self.gaps[gap].extend(more);
    }

    /// The plant file.
    pub fn file(&self, draft: &Draft) -> Vec<u8> {
        let mut file = vec![0; HEADER];
        file[0] = 1;
        for place in 0..6 {
            file.extend(&self.gaps[place]);
            let kind = self.order[place];
            file[1 + kind] = draft.count(kind) as u8;
            let begin = file.len();
            put_two_bytes(&mut file, 8 + 2 * kind, begin);
            file.extend(draft.section(kind));
        }
        file.extend(&self.gaps[6]);
        state_length(&mut file);
        file
    }
}

/// A two-byte number, low byte first.
pub fn put_two_bytes(file: &mut [u8], at: usize, number: usize) {
    file[at..at + 2].copy_from_slice(&(number as u16).to_le_bytes());
}

/// Bytes 20 and 21 say the length that the file has.
pub fn state_length(file: &mut [u8]) {
    let length = file.len();
    put_two_bytes(file, 20, length);
}

/// A plant file that opening accepts.
pub fn accepted_file(rng: &mut Rng, size: Size) -> Vec<u8> {
    let draft = draft(rng, size);
    Layout::random(rng, &draft).file(&draft)
}
