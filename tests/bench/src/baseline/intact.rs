//! Test 20.

use std::arch::x86_64::{
    __m128i, _mm_add_epi8, _mm_and_si128, _mm_cmpeq_epi8, _mm_loadl_epi64, _mm_loadu_si128,
    _mm_max_epu8, _mm_movemask_epi8, _mm_set1_epi64x, _mm_set1_epi8,
};

use permit_monitor::{Plant, Record};

use super::items::items_number;
use super::lattice::lattices_number;
use super::{first_byte, nonzero, rights_of, Tables, MOST, NONE};

/// Whether the record passes. Its plant then is in the tables.
#[inline(always)]
pub fn is_intact(record: &Record, tables: &mut Tables) -> bool {
    let plant = &record.plant;
    counts_pass(plant)
        && lattices_number(plant, tables) == 0
        && items_number(plant, tables) == 0
        && levels_pass(record, &tables.sizes)
        && (0..usize::from(plant.skids)).all(|s| skid_passes(record, s))
}

#[inline(always)]
fn counts_pass(plant: &Plant) -> bool {
    let counts =
        [plant.lattices, plant.requirements, plant.groups, plant.tanks, plant.tasks, plant.skids];
    (0..6).all(|kind| counts[kind].wrapping_sub(1) < MOST[kind])
}

/// A level plus 1, which for an unset one is 0, is at most the number of levels.
#[inline(always)]
fn levels_pass(record: &Record, sizes: &[u8; 8]) -> bool {
    let tasks = usize::from(record.plant.tasks);
    // At most eight skids have a row of at most sixteen tasks of eight levels.
    unsafe {
        let most = _mm_set1_epi64x(i64::from_le_bytes(*sizes));
        let mut pass = _mm_set1_epi8(-1);
        for s in 0..usize::from(record.plant.skids) {
            let row = record.levels.as_ptr().add(s * 128);
            for pair in 0..tasks / 2 {
                let levels = _mm_loadu_si128(row.add(pair * 16).cast::<__m128i>());
                pass = _mm_and_si128(pass, levels_within(levels, most));
            }
            if tasks % 2 == 1 {
                let levels = _mm_loadl_epi64(row.add((tasks - 1) * 8).cast::<__m128i>());
                pass = _mm_and_si128(pass, levels_within(levels, most));
            }
        }
        _mm_movemask_epi8(pass) == 0xffff
    }
}

#[inline(always)]
unsafe fn levels_within(levels: __m128i, most: __m128i) -> __m128i {
    let next = _mm_add_epi8(levels, _mm_set1_epi8(1));
    _mm_cmpeq_epi8(_mm_max_epu8(next, most), most)
}

/// The running task, and the chosen tanks where it has a right.
#[inline(always)]
fn skid_passes(record: &Record, s: usize) -> bool {
    let plant = &record.plant;
    let task = record.running[s];
    if task == NONE {
        return true;
    }
    if task >= plant.tasks || (plant.skid_tasks[s] >> (task & 15)) & 1 == 0 {
        return false;
    }
    let mut needed = nonzero(rights_of(plant, usize::from(task)));
    while needed != 0 {
        let (g, rest) = first_byte(needed);
        needed = rest;
        let tank = record.chosen[s * 8 + g];
        if tank >= plant.tanks || usize::from(plant.tank_group[usize::from(tank) & 63]) != g {
            return false;
        }
    }
    true
}
