//! Lattices of many shapes, orders that are no lattice, and relations that are
//! no order. Levels are renumbered at random, so that level numbers say nothing
//! about the order.

use super::rng::Rng;
use crate::lattice::Lattice;

/// The relation on n levels in which i is at or under j where `holds` says so.
pub fn relation(n: usize, holds: impl Fn(usize, usize) -> bool) -> Lattice {
    let mut sets = [0; 16];
    for (i, set) in sets.iter_mut().enumerate().take(n) {
        for j in 0..n {
            if holds(i, j) {
                *set |= 1 << j;
            }
        }
    }
    Lattice { n, sets }
}

/// n levels, each under the next.
pub fn chain(n: usize) -> Lattice {
    relation(n, |i, j| i <= j)
}

/// n levels, none at or under another.
pub fn antichain(n: usize) -> Lattice {
    relation(n, |i, j| i == j)
}

/// Pairs of levels, compared in both places; at most 16 of them.
pub fn product(a: &Lattice, b: &Lattice) -> Lattice {
    relation(a.n * b.n, |i, j| a.at_or_under(i / b.n, j / b.n) && b.at_or_under(i % b.n, j % b.n))
}

/// The divisors of a number under divisibility.
pub fn divisors(number: usize) -> Lattice {
    let all: Vec<usize> = (1..=number).filter(|d| number.is_multiple_of(*d)).collect();
    relation(all.len(), |i, j| all[j].is_multiple_of(all[i]))
}

/// A bottom, a top and `middle` incomparable levels between them. With three of
/// them it is M3.
pub fn diamond(middle: usize) -> Lattice {
    relation(middle + 2, |i, j| i == j || i == 0 || j == middle + 1)
}

/// N5: a bottom, a top, a chain of two between them and one level beside it.
pub fn pentagon() -> Lattice {
    relation(5, |i, j| i == j || i == 0 || j == 4 || (i == 1 && j == 2))
}

/// The lattice with new tops above it until it has n levels.
pub fn topped(lattice: &Lattice, n: usize) -> Lattice {
    let old = lattice.n;
    relation(n, |i, j| if j < old { i < old && lattice.at_or_under(i, j) } else { i <= j })
}

/// The level that every level is at or under.
pub fn top(lattice: &Lattice) -> Option<usize> {
    (0..lattice.n).find(|&v| (0..lattice.n).all(|i| lattice.at_or_under(i, v)))
}

/// The lattice with new bottoms under it until it has n levels.
pub fn bottomed(lattice: &Lattice, n: usize) -> Lattice {
    dual(&topped(&dual(lattice), n))
}

/// The lattice with new tops or new bottoms until it has n levels.
fn padded(rng: &mut Rng, lattice: &Lattice, n: usize) -> Lattice {
    let middle = rng.between(lattice.n, n);
    topped(&bottomed(lattice, middle), n)
}

/// Subsets of a small set, closed under intersection and with the whole set
/// among them: always a lattice, and every finite lattice is of this kind.
pub fn closure_system(rng: &mut Rng, most: usize) -> Lattice {
    let whole = (1usize << rng.between(3, 6)) - 1;
    let mut family = vec![whole];
    for _ in 0..rng.between(1, 12) {
        let set = rng.below(whole + 1);
        let mut larger = family.clone();
        for &other in &family {
            if !larger.contains(&(set & other)) {
                larger.push(set & other);
            }
        }
        if larger.len() <= most {
            family = larger;
        }
    }
    relation(family.len(), |i, j| family[i] & family[j] == family[i])
}

/// The same relation with its levels renumbered.
pub fn renumbered(rng: &mut Rng, lattice: &Lattice) -> Lattice {
    let mut old: Vec<usize> = (0..lattice.n).collect();
    rng.shuffle(&mut old);
    relation(lattice.n, |i, j| lattice.at_or_under(old[i], old[j]))
}

/// The relation with everything added that makes it transitive.
pub fn transitive_closure(lattice: &Lattice) -> Lattice {
    let mut closed = *lattice;
    for k in 0..lattice.n {
        for i in 0..lattice.n {
            if closed.at_or_under(i, k) {
                closed.sets[i] |= closed.sets[k];
            }
        }
    }
    closed
}

/// A lattice of exactly n levels, of any shape.
pub fn lattice_of_size(rng: &mut Rng, n: usize) -> Lattice {
    let kernel = match rng.below(8) {
        0 => chain(n),
        1 if n >= 4 => diamond(n - 2),
        2 => fitting_product(rng, n),
        3 => fitting_divisors(rng, n),
        4 if n >= 5 => pentagon(),
        5 if n >= 5 => diamond(3),
        _ => closure_system(rng, n),
    };
    let shape = padded(rng, &kernel, n);
    match rng.chance(1, 4) {
        true => shape,
        false => renumbered(rng, &shape),
    }
}

/// A product of two to four chains with at most n levels, n when it can be.
fn fitting_product(rng: &mut Rng, n: usize) -> Lattice {
    let mut lattice = chain(1);
    loop {
        let room = n / lattice.n;
        if room < 2 {
            return lattice;
        }
        lattice = product(&lattice, &chain(rng.between(2, room.min(4))));
    }
}

/// The divisors of a number that has at most n of them.
fn fitting_divisors(rng: &mut Rng, n: usize) -> Lattice {
    let numbers = [1, 6, 12, 18, 24, 30, 36, 48, 60, 72, 80, 120, 210, 216];
    let fitting: Vec<Lattice> =
        numbers.iter().map(|&number| small_divisors(number)).filter(|l| l.n <= n).collect();
    rng.pick(&fitting)
}

/// The divisors of a number, or of 1 where there are more than sixteen.
fn small_divisors(number: usize) -> Lattice {
    match (1..=number).filter(|d| number.is_multiple_of(*d)).count() {
        0..=16 => divisors(number),
        _ => divisors(1),
    }
}

/// An order of n levels, n at least 2, that is no lattice.
pub fn no_lattice_of_size(rng: &mut Rng, n: usize) -> Lattice {
    let shape = match rng.below(6) {
        0 => antichain(n),
        1 if n >= 3 => without_one_top(rng, n),
        2 if n >= 3 => dual(&without_one_top(rng, n)),
        3 if n >= 6 => topped(&crossed(), n),
        4 if n >= 7 => dual(&topped(&crossed(), n)),
        5 => two_pieces(rng, n),
        _ => antichain(n),
    };
    renumbered(rng, &shape)
}

/// A bottom and a top, and between them two levels that are both under two
/// others: "A bottom and a top alone don't make one."
pub fn crossed() -> Lattice {
    Lattice { n: 6, sets: sets(&[63, 58, 60, 40, 48, 32]) }
}

/// The sets of a lattice with few levels, the others zero.
pub fn sets(first: &[u16]) -> [u16; 16] {
    let mut sets = [0; 16];
    sets[..first.len()].copy_from_slice(first);
    sets
}

/// Upside down.
pub fn dual(lattice: &Lattice) -> Lattice {
    relation(lattice.n, |i, j| lattice.at_or_under(j, i))
}

/// A lattice of n - 1 levels and one more that is only above some bottom: every
/// pair has a meet, but one pair no join.
fn without_one_top(rng: &mut Rng, n: usize) -> Lattice {
    let lattice = lattice_of_size(rng, n - 1);
    let bottom = top(&dual(&lattice));
    relation(n, |i, j| {
        if i == n - 1 || j == n - 1 {
            i == j || Some(i) == bottom
        } else {
            lattice.at_or_under(i, j)
        }
    })
}

/// Two chains beside each other.
fn two_pieces(rng: &mut Rng, n: usize) -> Lattice {
    let cut = rng.between(1, n - 1);
    relation(n, |i, j| i <= j && (i < cut) == (j < cut))
}

/// A relation of n levels that breaks one law of an order: it isn't reflexive,
/// or isn't antisymmetric (n at least 2), or isn't transitive (n at least 3).
pub fn no_order_of_size(rng: &mut Rng, n: usize) -> Lattice {
    let lattice = lattice_of_size(rng, n);
    let broken = match rng.below(n.min(3)) {
        0 => not_reflexive(rng, &lattice),
        1 => not_antisymmetric(rng, &lattice),
        _ if rng.chance(1, 2) => padded(rng, &not_transitive(), n),
        _ => padded(rng, &circle(), n),
    };
    renumbered(rng, &broken)
}

/// One level is not at or under itself.
fn not_reflexive(rng: &mut Rng, lattice: &Lattice) -> Lattice {
    let mut broken = *lattice;
    let level = rng.below(lattice.n);
    broken.sets[level] &= !(1 << level);
    broken
}

/// Two levels are at or under each other, and the rest is made transitive.
fn not_antisymmetric(rng: &mut Rng, lattice: &Lattice) -> Lattice {
    let mut broken = *lattice;
    let i = rng.below(lattice.n);
    let j = (i + rng.between(1, lattice.n - 1)) % lattice.n;
    broken.sets[i] |= 1 << j;
    broken.sets[j] |= 1 << i;
    transitive_closure(&broken)
}

/// A chain of three without the step from the first to the last.
fn not_transitive() -> Lattice {
    relation(3, |i, j| i <= j && !(i == 0 && j == 2))
}

/// Three levels, each under the next and the last under the first. It isn't
/// transitive, yet every pair has one join and one meet: check 8 alone sees it.
fn circle() -> Lattice {
    relation(3, |i, j| i == j || j == (i + 1) % 3)
}

/// Any order, made from steps upward at random: a lattice or not.
pub fn random_order(rng: &mut Rng, n: usize) -> Lattice {
    let density = rng.between(1, 6);
    let mut order = Lattice { n, sets: [0; 16] };
    for i in 0..n {
        order.sets[i] = 1 << i;
        for j in i + 1..n {
            if rng.chance(density, 10) {
                order.sets[i] |= 1 << j;
            }
        }
    }
    renumbered(rng, &transitive_closure(&order))
}

/// Any relation: an order or not.
pub fn random_relation(rng: &mut Rng, n: usize) -> Lattice {
    let mask = ((1u32 << n) - 1) as u16;
    let mut any = Lattice { n, sets: [0; 16] };
    for set in any.sets.iter_mut().take(n) {
        *set = rng.bits() as u16 & mask;
    }
    any
}
