//! Lists of requests. Most calls are sensible, many arguments stand just at a
//! count, and some bytes are wild.

use super::lattices::top;
use super::rng::Rng;
use crate::choice::choice;
use crate::plant::{Plant, REQUIREMENTS, SKIDS, TANKS, TASKS};

/// What the list has set so far: the last level given for a skid, task and
/// requirement. It only helps to aim gates; no answer is taken from it.
struct Aim<'a> {
    plant: &'a Plant,
    levels: Vec<Option<usize>>,
    list: Vec<[u8; 5]>,
}

/// A list of `count` requests for a plant that opening accepts.
pub fn calls(rng: &mut Rng, plant: &Plant, count: usize) -> Vec<[u8; 5]> {
    let mut aim = Aim { plant, levels: vec![None; 1024], list: Vec::new() };
    while aim.list.len() < count {
        aim.episode(rng);
    }
    aim.list.truncate(count);
    aim.list
}

/// Any bytes, the kind mostly a known one.
pub fn wild_calls(rng: &mut Rng, count: usize) -> Vec<[u8; 5]> {
    (0..count).map(|_| wild_call(rng)).collect()
}

fn wild_call(rng: &mut Rng) -> [u8; 5] {
    let kind = if rng.chance(3, 4) { rng.below(5) as u8 } else { rng.byte() };
    let mut argument = || match rng.below(3) {
        0 => rng.below(4) as u8,
        1 => rng.pick(&[0, 1, 2, 3, 7, 8, 15, 16, 17, 63, 64, 127, 128, 254, 255]),
        _ => rng.byte(),
    };
    [kind, argument(), argument(), argument(), argument()]
}

impl Aim<'_> {
    /// A few calls that belong together.
    fn episode(&mut self, rng: &mut Rng) {
        let skid = rng.below(self.plant.count(SKIDS));
        let task = self.likely_task(rng, skid);
        match rng.below(10) {
            0..=2 => self.blend(rng, skid, task),
            3 => self.set_some(rng, skid, task),
            4 => self.push_stop(rng, skid),
            5 => self.push(rng, [1, skid, task, 0, 0], 2),
            6 => self.gate_some(rng, skid, task),
            7 => self.any_sensible(rng),
            8 => self.list.push(wild_call(rng)),
            _ => self.push_unknown(rng),
        }
    }

    /// Mostly a task that the skid may run.
    fn likely_task(&self, rng: &mut Rng, skid: usize) -> usize {
        let tasks = self.plant.count(TASKS);
        let may: Vec<usize> = (0..tasks).filter(|&t| self.plant.may_run(skid, t)).collect();
        match may.is_empty() || rng.chance(1, 10) {
            true => rng.below(tasks),
            false => rng.pick(&may),
        }
    }

    /// Perhaps a stop, levels for what the task needs (at times one is left
    /// out), a start, gates, perhaps a level changed meanwhile, and a gate.
    fn blend(&mut self, rng: &mut Rng, skid: usize, task: usize) {
        if rng.chance(2, 3) {
            self.push_stop(rng, skid);
        }
        let forgotten = if rng.chance(1, 5) { rng.below(8) } else { 8 };
        for requirement in self.needed_requirements(task) {
            if requirement != forgotten {
                self.push_set(rng, skid, task, requirement);
            }
        }
        self.push(rng, [1, skid, task, 0, 0], 2);
        self.gate_some(rng, skid, task);
        if rng.chance(1, 2) {
            self.set_some(rng, skid, task);
            self.gate_some(rng, skid, task);
        }
        if rng.chance(1, 3) {
            let again = self.likely_task(rng, skid);
            self.push(rng, [1, skid, again, 0, 0], 2);
        }
    }

    /// The requirements of the groups on which the task names a right.
    fn needed_requirements(&self, task: usize) -> Vec<usize> {
        let groups = self.plant.needed_groups(task);
        let mut all: Vec<usize> = groups.iter().map(|&g| self.plant.requirement_of(g)).collect();
        all.sort();
        all.dedup();
        all
    }

    /// A set of one requirement, needed or not.
    fn set_some(&mut self, rng: &mut Rng, skid: usize, task: usize) {
        let requirement = rng.below(self.plant.count(REQUIREMENTS));
        self.push_set(rng, skid, task, requirement);
    }

    fn push_set(&mut self, rng: &mut Rng, skid: usize, task: usize, requirement: usize) {
        let level = self.likely_level(rng, requirement);
        self.levels[(skid * 16 + task) * 8 + requirement] = Some(level);
        self.push(rng, [0, skid, task, requirement, level], 4);
    }

    /// The top, the level of some tank judged on the requirement, a level
    /// without a tank, or any.
    fn likely_level(&self, rng: &mut Rng, requirement: usize) -> usize {
        let lattice = self.plant.lattice_of_requirement(requirement);
        let judged = |&t: &usize| self.plant.requirement_of(self.plant.group_of(t)) == requirement;
        let tanks: Vec<usize> = (0..self.plant.count(TANKS)).filter(judged).collect();
        match rng.below(6) {
            0..=2 => top(&lattice).unwrap_or(0),
            3 if !tanks.is_empty() => self.plant.level_of(rng.pick(&tanks)),
            _ => rng.below(lattice.n),
        }
    }

    fn push_stop(&mut self, rng: &mut Rng, skid: usize) {
        self.push(rng, [2, skid, 0, 0, 0], 1);
    }

    /// Gates of the skid on tanks of a group that the task needs: the one that
    /// the levels given so far would choose, and another.
    fn gate_some(&mut self, rng: &mut Rng, skid: usize, task: usize) {
        let groups = self.plant.needed_groups(task);
        if groups.is_empty() {
            return self.any_gate(rng, skid);
        }
        let group = rng.pick(&groups);
        let rights: Vec<usize> =
            (0..3).filter(|&r| self.plant.names_right(task, group, r)).collect();
        let requirement = self.plant.requirement_of(group);
        let level = self.levels[(skid * 16 + task) * 8 + requirement];
        if let Some(tank) = level.and_then(|v| choice(self.plant, group, v)) {
            let right = rng.pick(&rights);
            self.push(rng, [3, skid, tank, right, 0], 3);
        }
        let tanks = self.plant.tanks_of(group);
        if !tanks.is_empty() && rng.chance(1, 2) {
            let gate = [3, skid, rng.pick(&tanks), rng.pick(&rights), 0];
            self.push(rng, gate, 3);
        }
    }

    fn any_gate(&mut self, rng: &mut Rng, skid: usize) {
        let gate = [3, skid, rng.below(self.plant.count(TANKS)), rng.below(4), 0];
        self.push(rng, gate, 3);
    }

    /// A call with arguments under their counts, whatever it means.
    fn any_sensible(&mut self, rng: &mut Rng) {
        let counts = self.plant.counts();
        let skid = rng.below(counts[SKIDS]);
        let task = rng.below(counts[TASKS]);
        match rng.below(3) {
            0 => {
                let level = rng.below(17);
                let requirement = rng.below(counts[REQUIREMENTS]);
                self.push(rng, [0, skid, task, requirement, level], 4);
            }
            1 => self.push(rng, [1, skid, task, 0, 0], 2),
            _ => self.any_gate(rng, skid),
        }
    }

    fn push_unknown(&mut self, rng: &mut Rng) {
        let kind = rng.pick(&[4, 5, 6, 32, 128, 254, 255]);
        self.push(rng, [kind, 0, 0, 0, 0], 0);
    }

    /// Adds a call. Now and then one of its arguments moves to its boundary;
    /// the unused places hold any bytes.
    fn push(&mut self, rng: &mut Rng, call: [usize; 5], used: usize) {
        let mut bytes = call.map(|number| number as u8);
        if used > 0 && rng.chance(1, 8) {
            let place = rng.between(1, used);
            bytes[place] = self.boundary(rng, call, place);
        }
        for byte in bytes.iter_mut().skip(1 + used) {
            *byte = rng.byte();
        }
        self.list.push(bytes);
    }

    /// A number at the count of what stands in this place of the call, just
    /// under it, just past it, or far off.
    fn boundary(&self, rng: &mut Rng, call: [usize; 5], place: usize) -> u8 {
        let counts = self.plant.counts();
        let count = match (call[0], place) {
            (_, 1) => counts[SKIDS],
            (3, 2) => counts[TANKS],
            (3, _) => 3,
            (_, 2) => counts[TASKS],
            (_, 3) => counts[REQUIREMENTS],
            _ => self.plant.lattice_of_requirement(call[3]).n,
        };
        match rng.below(4) {
            0 => count as u8 - 1,
            1 | 2 => count as u8,
            _ => rng.pick(&[count as u8 + 1, 8, 16, 64, 254, 255]),
        }
    }
}
