//! Queue and batch: a list of requests on one tested record.

use permit_monitor::{Plant, Record};

use super::calls::{choice, gate_refusal, set, start, stop};
use super::intact::is_intact;
use super::opening::{clear_parts, open_plant};
use super::{first_byte, nonzero, rights_of, Counts, Tables, NONE};

/// A choice that was not needed yet. No tank has this number.
const UNKNOWN: u8 = 254;

/// The count, and three bytes for each of 192 rights.
const HELD: usize = 577;

/// Queue: 20, 31, or the answers.
#[inline(never)]
#[export_name = "baseline_queue"]
pub fn queue(record: &mut Record, requests: &[[u8; 5]], out: &mut [u8]) -> u8 {
    let mut tables = Tables::empty();
    if !is_intact(record, &mut tables) {
        return 20;
    }
    if out.len() < requests.len() {
        return 31;
    }
    let mut list = List::new(record, &tables);
    for s in 0..usize::from(list.record.plant.skids) {
        list.hold(s);
    }
    list.serve(requests, out);
    0
}

/// Batch: 1 to 12, 34, 31, or the answers and the rights held.
#[inline(never)]
#[export_name = "baseline_batch"]
pub fn batch(file: &[u8], requests: &[u8], out: &mut [u8]) -> u8 {
    let mut record = Record::zeros();
    let mut tables = Tables::empty();
    let number = open_plant(&mut record.plant, file, &mut tables);
    if number != 0 {
        return number;
    }
    let (requests, rest) = requests.as_chunks::<5>();
    if !rest.is_empty() {
        return 34;
    }
    if out.len() < requests.len() + HELD {
        return 31;
    }
    clear_parts(&mut record);
    let mut list = List::new(&mut record, &tables);
    list.serve(requests, out);
    list.write_held(&mut out[requests.len()..]);
    0
}

/// A record with what makes many calls on it fast.
struct List<'a> {
    record: &'a mut Record,
    tables: &'a Tables,
    /// The choice from group g under level v, at g * 16 + v, once it was needed.
    choices: [u8; 128],
    /// The rights that skid s holds on tank o, at s * 64 + o, a bit each.
    held: [u8; 512],
}

impl List<'_> {
    #[inline(always)]
    fn new<'a>(record: &'a mut Record, tables: &'a Tables) -> List<'a> {
        List { record, tables, choices: [UNKNOWN; 128], held: [0; 512] }
    }

    /// Sets and gates are most of a list. Starts and stops stay functions of
    /// their own, so that the loop has the registers for itself. The kinds are
    /// told by comparisons: a table of jumps, which a `match` on all of them
    /// becomes, is predicted worse.
    #[inline(never)]
    fn serve(&mut self, requests: &[[u8; 5]], out: &mut [u8]) {
        let counts = Counts::of(&self.record.plant);
        for (answer, &[kind, a, b, c, d]) in out.iter_mut().zip(requests) {
            *answer = if kind > 2 {
                match kind {
                    3 => self.gate(counts, a, b, c),
                    _ => 32,
                }
            } else {
                match kind {
                    0 => self.set(counts, a, b, c, d),
                    1 => self.start(a, b),
                    _ => self.stop(a),
                }
            };
        }
    }

    #[inline(always)]
    fn set(&mut self, counts: Counts, skid: u8, task: u8, requirement: u8, level: u8) -> u8 {
        set(&mut self.record.levels, counts, &self.tables.sizes, skid, task, requirement, level)
    }

    #[inline(never)]
    fn start(&mut self, skid: u8, task: u8) -> u8 {
        let List { record, tables, choices, .. } = self;
        let number = start(record, skid, task, |plant, group, level| {
            known_choice(choices, plant, tables, group, level)
        });
        if number == 0 {
            self.hold(usize::from(skid) & 7);
        }
        number
    }

    /// What the running task of skid s holds goes into `held`.
    #[inline(always)]
    fn hold(&mut self, s: usize) {
        let task = self.record.running[s];
        if task == NONE {
            return;
        }
        let rights = rights_of(&self.record.plant, usize::from(task) & 15);
        let mut needed = nonzero(rights);
        while needed != 0 {
            let (g, rest) = first_byte(needed);
            needed = rest;
            let tank = usize::from(self.record.chosen[s * 8 + g]) & 63;
            self.held[s * 64 + tank] = (rights >> (8 * g)) as u8;
        }
    }

    #[inline(never)]
    fn stop(&mut self, skid: u8) -> u8 {
        let number = stop(self.record, skid);
        if number == 0 {
            let s = usize::from(skid) & 7;
            self.held[s * 64..s * 64 + 64].fill(0);
        }
        number
    }

    #[inline(always)]
    fn gate(&self, counts: Counts, skid: u8, tank: u8, right: u8) -> u8 {
        if (skid >= counts.skids) | (tank >= counts.tanks) | (right > 2) {
            return gate_refusal(counts, skid, tank);
        }
        // The counts are at most 8 and 64.
        let rights =
            unsafe { *self.held.get_unchecked(usize::from(skid) * 64 + usize::from(tank)) };
        if (rights >> right) & 1 == 1 {
            0
        } else {
            33
        }
    }

    /// The count of the rights held, and skid, tank and right of each, rising.
    fn write_held(&self, out: &mut [u8]) {
        let mut count = 0;
        for (i, eight) in self.held.as_chunks::<8>().0.iter().enumerate() {
            let mut tanks = nonzero(u64::from_le_bytes(*eight));
            while tanks != 0 {
                let (tank, rest) = first_byte(tanks);
                tanks = rest;
                for right in (0..3).filter(|right| (eight[tank] >> right) & 1 == 1) {
                    let at = 1 + 3 * count;
                    out[at..at + 3].copy_from_slice(&[
                        i as u8 / 8,
                        (i % 8 * 8 + tank) as u8,
                        right,
                    ]);
                    count += 1;
                }
            }
        }
        out[0] = count as u8;
    }
}

#[inline(always)]
fn known_choice(
    choices: &mut [u8; 128],
    plant: &Plant,
    tables: &Tables,
    group: usize,
    level: usize,
) -> u8 {
    let known = &mut choices[group * 16 + (level & 15)];
    if *known == UNKNOWN {
        *known = choice(plant, tables, group, level);
    }
    *known
}
