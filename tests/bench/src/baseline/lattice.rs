//! Checks 7, 8 and 9 by bit sets.

use std::arch::x86_64::{
    __m128i, _mm_add_epi8, _mm_and_si128, _mm_loadu_si128, _mm_movemask_epi8, _mm_packus_epi16,
    _mm_set1_epi16, _mm_srli_epi16,
};

use permit_monitor::Plant;

use super::Tables;

/// Sixteen sets of levels.
type Sets = [u16; 16];

/// 7, 8 or 9, the lowest that some lattice breaks, or 0.
#[inline(always)]
pub fn lattices_number(plant: &Plant, tables: &mut Tables) -> u8 {
    let mut lowest = 0;
    for l in 0..usize::from(plant.lattices) {
        let sets: &Sets = plant.lattice_sets[l * 16..l * 16 + 16].try_into().unwrap();
        let number = lattice_number(plant.lattice_sizes[l], sets, &mut tables.under[l]);
        if number != 0 && (lowest == 0 || number < lowest) {
            lowest = number;
        }
    }
    lowest
}

/// 7, 8, 9 or 0 for one lattice, whose turned sets are left in `under`.
#[inline(always)]
fn lattice_number(size: u8, sets: &Sets, under: &mut Sets) -> u8 {
    if size.wrapping_sub(1) >= 16 {
        return 7;
    }
    let n = usize::from(size);
    let levels = ((1u32 << n) - 1) as u16;
    let allowed = |i: usize| if i < n { levels } else { 0 };
    if (0..16).fold(0, |past, i| past | (sets[i] & !allowed(i))) != 0 {
        return 7;
    }
    *under = turned(sets);
    if !is_order(sets, under, n) {
        return 8;
    }
    if !has_joins_and_meets(sets, n, levels) {
        return 9;
    }
    0
}

/// Bit i of set j is bit j of the given set i.
#[inline(always)]
fn turned(sets: &Sets) -> Sets {
    let mut turned = [0; 16];
    // SSE2 is part of x86-64, and both loads lie within the array.
    unsafe {
        let first = _mm_loadu_si128(sets.as_ptr().cast::<__m128i>());
        let second = _mm_loadu_si128(sets.as_ptr().add(8).cast::<__m128i>());
        let byte = _mm_set1_epi16(255);
        let mut low = _mm_packus_epi16(_mm_and_si128(first, byte), _mm_and_si128(second, byte));
        let mut high = _mm_packus_epi16(_mm_srli_epi16(first, 8), _mm_srli_epi16(second, 8));
        for j in (0..8).rev() {
            turned[j] = _mm_movemask_epi8(low) as u16;
            turned[8 + j] = _mm_movemask_epi8(high) as u16;
            low = _mm_add_epi8(low, low);
            high = _mm_add_epi8(high, high);
        }
    }
    turned
}

/// Check 8. What is both at or above and at or under i is i alone: reflexive and
/// antisymmetric. What is above a level above i is above i: transitive.
#[inline(always)]
fn is_order(sets: &Sets, under: &Sets, n: usize) -> bool {
    let mut wrong = 0;
    for i in 0..16 {
        let itself = if i < n { 1 << i } else { 0 };
        wrong |= (sets[i] & under[i]) ^ itself;
    }
    for j in 0..16 {
        for i in 0..16 {
            let at_or_under = ((sets[i] >> j) & 1).wrapping_neg();
            wrong |= at_or_under & sets[j] & !sets[i];
        }
    }
    wrong == 0
}

/// Check 9, of an order, for every pair of levels. They are renumbered so that a
/// level under another has the lower number; the least of a set of levels, if
/// there is one, is then the first of it. Where one level of a pair is under the
/// other, the two are its meet and its join.
#[inline(always)]
fn has_joins_and_meets(sets: &Sets, n: usize, levels: u16) -> bool {
    let (above, under) = rising(sets);
    // With a bottom and a top no set of common bounds is empty.
    if above[0] != levels || under[n - 1] != levels {
        return false;
    }
    let mut wrong = 0;
    for i in 0..n {
        let mut others = levels & !above[i] & (u16::MAX << i);
        while others != 0 {
            let j = others.trailing_zeros() as usize & 15;
            others &= others - 1;
            let upper = above[i] & above[j];
            let lower = under[i] & under[j];
            wrong |= upper ^ above[first(upper)];
            wrong |= lower ^ under[last(lower)];
        }
    }
    wrong == 0
}

/// The lowest level of a set that is not empty.
#[inline(always)]
fn first(set: u16) -> usize {
    u32::from(set).trailing_zeros() as usize & 15
}

/// The highest level of a set that is not empty.
#[inline(always)]
fn last(set: u16) -> usize {
    (31 - u32::from(set).leading_zeros()) as usize & 15
}

/// The sets of an order and its turned sets, the levels renumbered: the more
/// levels are at or above a level, the lower its number.
#[inline(always)]
fn rising(sets: &Sets) -> (Sets, Sets) {
    let old = rising_levels(sets);
    let half = turned(&old.map(|level| sets[level & 15]));
    let under = old.map(|level| half[level & 15]);
    (turned(&under), under)
}

/// The levels in that order.
#[inline(always)]
fn rising_levels(sets: &Sets) -> [usize; 16] {
    let mut keys = [0u16; 16];
    for i in 0..16 {
        keys[i] = sets[i].count_ones() as u16 * 16 + i as u16;
    }
    let mut numbers = [0u16; 16];
    for j in 0..16 {
        for i in 0..16 {
            numbers[i] += u16::from(keys[j] > keys[i]);
        }
    }
    let mut levels = [0; 16];
    for i in 0..16 {
        levels[usize::from(numbers[i]) & 15] = i;
    }
    levels
}
