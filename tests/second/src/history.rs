//! "A list's history, for demand 3, is read from the plant, anything else that
//! opening was given, and the calls' arguments, never from a monitor's changing
//! parts."
//!
//! Nothing here touches a record. A call is five bytes: its kind (0 set, 1
//! start, 2 stop, 3 gate) and its arguments.

use crate::choice::{choice, some_tank_at_or_under};
use crate::plant::{Plant, REQUIREMENTS, RIGHTS, SKIDS, TANKS, TASKS};

const SET: u8 = 0;
const START: u8 = 1;
const STOP: u8 = 2;
const GATE: u8 = 3;

/// A list of calls and, for the calls read so far, whether each was accepted.
struct History<'a> {
    plant: &'a Plant,
    calls: &'a [[u8; 5]],
    accepted: Vec<bool>,
}

/// Every answer that the history of the list gives.
pub fn history_answers(plant: &Plant, calls: &[[u8; 5]]) -> Vec<u8> {
    read(plant, calls).1
}

/// The rights that the history gives after the list, as skid, tank and right,
/// rising in that order.
pub fn history_rights(plant: &Plant, calls: &[[u8; 5]]) -> Vec<(u8, u8, u8)> {
    let (history, _) = read(plant, calls);
    let mut rights = Vec::new();
    for skid in 0..plant.count(SKIDS) {
        for tank in 0..plant.count(TANKS) {
            for right in 0..RIGHTS {
                if history.gives(calls.len(), skid, tank, right) {
                    rights.push((skid as u8, tank as u8, right as u8));
                }
            }
        }
    }
    rights
}

/// The list read from its first call to its last, "over the calls before it".
fn read<'a>(plant: &'a Plant, calls: &'a [[u8; 5]]) -> (History<'a>, Vec<u8>) {
    let mut history = History { plant, calls, accepted: Vec::new() };
    let mut answers = Vec::new();
    for at in 0..calls.len() {
        let number = history.number(at);
        answers.push(history.answer(at, number));
        history.accepted.push(number == 0);
    }
    (history, answers)
}

impl History<'_> {
    /// Argument i of a call.
    fn argument(&self, at: usize, i: usize) -> usize {
        usize::from(self.calls[at][1 + i])
    }

    /// Whether call `at` is an accepted one of this kind that names this skid.
    fn accepted(&self, at: usize, kind: u8, skid: usize) -> bool {
        self.accepted[at] && self.calls[at][0] == kind && self.argument(at, 0) == skid
    }

    /// "A level is unset for a skid, task and requirement until an accepted set
    /// of them; then it is that of the last such set." Here before call `at`.
    fn level_before(
        &self,
        at: usize,
        skid: usize,
        task: usize,
        requirement: usize,
    ) -> Option<usize> {
        let sets_it = |&call: &usize| {
            self.accepted(call, SET, skid)
                && self.argument(call, 1) == task
                && self.argument(call, 2) == requirement
        };
        (0..at).rev().find(sets_it).map(|call| self.argument(call, 3))
    }

    /// "A skid runs the task of its last accepted start, if no accepted stop of
    /// it came later, and otherwise none." That start, before call `at`.
    fn running_start(&self, at: usize, skid: usize) -> Option<usize> {
        let start = (0..at).rev().find(|&call| self.accepted(call, START, skid))?;
        let stopped = (start + 1..at).any(|call| self.accepted(call, STOP, skid));
        if stopped {
            None
        } else {
            Some(start)
        }
    }

    /// "The history gives it right r on tank o when that task names r on o's
    /// group and o is the choice there under the level, before that start, of
    /// this skid, that task and the group's requirement."
    fn gives(&self, at: usize, skid: usize, tank: usize, right: usize) -> bool {
        let Some(start) = self.running_start(at, skid) else {
            return false;
        };
        let task = self.argument(start, 1);
        let group = self.plant.group_of(tank);
        if !self.plant.names_right(task, group, right) {
            return false;
        }
        let requirement = self.plant.requirement_of(group);
        match self.level_before(start, skid, task, requirement) {
            Some(level) => choice(self.plant, group, level) == Some(tank),
            None => false,
        }
    }

    /// "The answer to a refused call is the number that decides; to an accepted
    /// one it is 0, or 33 for a gate whose right the history doesn't give."
    fn answer(&self, at: usize, number: u8) -> u8 {
        if number != 0 || self.calls[at][0] != GATE {
            return number;
        }
        let [skid, tank, right] = [0, 1, 2].map(|i| self.argument(at, i));
        if self.gives(at, skid, tank, right) {
            0
        } else {
            33
        }
    }

    /// "A call of the list is accepted when none of the conditions written for
    /// it holds, 20 left out, read over the calls before it". The first
    /// condition that holds, or 0. An unknown kind is no call of demand 3's
    /// lists; the queue's answer for it, 32, is given so that such lists can be
    /// compared too.
    fn number(&self, at: usize) -> u8 {
        match self.calls[at][0] {
            SET => self.set_number(at),
            START => self.start_number(at),
            STOP => self.stop_number(at),
            GATE => self.gate_number(at),
            _ => 32,
        }
    }

    /// Set (skid, task, requirement, level): 21, 22, 23, 24.
    fn set_number(&self, at: usize) -> u8 {
        if !self.plant.has(SKIDS, self.argument(at, 0)) {
            21
        } else if !self.plant.has(TASKS, self.argument(at, 1)) {
            22
        } else if !self.plant.has(REQUIREMENTS, self.argument(at, 2)) {
            23
        } else if !self.has_level(self.argument(at, 2), self.argument(at, 3)) {
            24
        } else {
            0
        }
    }

    /// The lattice of the requirement has the level.
    fn has_level(&self, requirement: usize, level: usize) -> bool {
        self.plant.lattice_of_requirement(requirement).has_level(level)
    }

    /// Start (skid, task): 21, 22, 25, 26, 27, 28.
    fn start_number(&self, at: usize) -> u8 {
        let skid = self.argument(at, 0);
        let task = self.argument(at, 1);
        if !self.plant.has(SKIDS, skid) {
            21
        } else if !self.plant.has(TASKS, task) {
            22
        } else if !self.plant.may_run(skid, task) {
            25
        } else if self.running_start(at, skid).is_some() {
            26
        } else if self.levels_for(at, skid, task).iter().any(|(_, level)| level.is_none()) {
            27
        } else if self.levels_for(at, skid, task).iter().any(|&pair| self.no_tank(pair)) {
            28
        } else {
            0
        }
    }

    /// Each group on which the task names a right, with the level of this skid,
    /// this task and the group's requirement before call `at`.
    fn levels_for(&self, at: usize, skid: usize, task: usize) -> Vec<(usize, Option<usize>)> {
        let level =
            |group: usize| self.level_before(at, skid, task, self.plant.requirement_of(group));
        self.plant.needed_groups(task).into_iter().map(|group| (group, level(group))).collect()
    }

    /// "for such a group no tank is at or under its level".
    fn no_tank(&self, (group, level): (usize, Option<usize>)) -> bool {
        !level.is_some_and(|level| some_tank_at_or_under(self.plant, group, level))
    }

    /// Stop (skid): 21.
    fn stop_number(&self, at: usize) -> u8 {
        if !self.plant.has(SKIDS, self.argument(at, 0)) {
            21
        } else {
            0
        }
    }

    /// Gate (skid, tank, right): 21, 29, 30.
    fn gate_number(&self, at: usize) -> u8 {
        if !self.plant.has(SKIDS, self.argument(at, 0)) {
            21
        } else if !self.plant.has(TANKS, self.argument(at, 1)) {
            29
        } else if self.argument(at, 2) >= RIGHTS {
            30
        } else {
            0
        }
    }
}
