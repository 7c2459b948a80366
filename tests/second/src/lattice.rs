//! A lattice of levels, and the laws that make it one.

/// One lattice: the number n of levels, and the sixteen sets.
///
/// n is kept as it was read, so it may be outside 1 to 16 until
/// [`Lattice::breaks_layout`] has said no.
#[derive(Clone, Copy, PartialEq, Eq, Debug)]
pub struct Lattice {
    pub n: usize,
    pub sets: [u16; 16],
}

impl Lattice {
    /// "Bit j of set i (bit 0 is worth 1) means level i is at or under level j."
    pub fn at_or_under(&self, i: usize, j: usize) -> bool {
        (self.sets[i] >> j) & 1 == 1
    }

    /// Level i lies strictly above level j: j is at or under i, and they differ.
    pub fn strictly_above(&self, i: usize, j: usize) -> bool {
        self.at_or_under(j, i) && i != j
    }

    /// "A level is a number in a lattice", the levels being numbered from 0.
    pub fn has_level(&self, level: usize) -> bool {
        level < self.n
    }

    /// Check 7, the part that a record keeps too: "the number n of levels, 1 to
    /// 16" and "Sets from n on, and bits from n on, are zero."
    pub fn breaks_layout(&self) -> bool {
        self.n < 1 || self.n > 16 || self.some_set_from_n_on() || self.some_bit_from_n_on()
    }

    /// "Sets from n on [...] are zero" is broken.
    fn some_set_from_n_on(&self) -> bool {
        (self.n..16).any(|i| self.sets[i] != 0)
    }

    /// "[...] and bits from n on, are zero" is broken.
    fn some_bit_from_n_on(&self) -> bool {
        (0..16).any(|i| (self.n..16).any(|j| self.at_or_under(i, j)))
    }

    /// Check 8: "A lattice is reflexive, antisymmetric and transitive".
    pub fn is_order(&self) -> bool {
        self.reflexive() && self.antisymmetric() && self.transitive()
    }

    /// Each level is at or under itself.
    pub fn reflexive(&self) -> bool {
        (0..self.n).all(|i| self.at_or_under(i, i))
    }

    /// No two different levels are at or under each other.
    pub fn antisymmetric(&self) -> bool {
        self.every_pair(|i, j| i == j || !(self.at_or_under(i, j) && self.at_or_under(j, i)))
    }

    /// Where i is at or under j and j at or under k, i is at or under k.
    pub fn transitive(&self) -> bool {
        self.every_pair(|i, j| {
            !self.at_or_under(i, j)
                || (0..self.n).all(|k| !self.at_or_under(j, k) || self.at_or_under(i, k))
        })
    }

    /// Check 9: "every pair of levels has one join and one meet (least upper and
    /// greatest lower bound)".
    pub fn has_joins_and_meets(&self) -> bool {
        self.every_pair(|i, j| self.joins(i, j).len() == 1 && self.meets(i, j).len() == 1)
    }

    /// The least upper bounds of i and j: upper bounds that are at or under
    /// every upper bound.
    pub fn joins(&self, i: usize, j: usize) -> Vec<usize> {
        let bounds = self.upper_bounds(i, j);
        let least = |u: usize| bounds.iter().all(|&other| self.at_or_under(u, other));
        bounds.iter().copied().filter(|&u| least(u)).collect()
    }

    /// The greatest lower bounds of i and j: lower bounds that every lower bound
    /// is at or under.
    pub fn meets(&self, i: usize, j: usize) -> Vec<usize> {
        let bounds = self.lower_bounds(i, j);
        let greatest = |l: usize| bounds.iter().all(|&other| self.at_or_under(other, l));
        bounds.iter().copied().filter(|&l| greatest(l)).collect()
    }

    /// The levels that both i and j are at or under.
    fn upper_bounds(&self, i: usize, j: usize) -> Vec<usize> {
        let bound = |u: &usize| self.at_or_under(i, *u) && self.at_or_under(j, *u);
        (0..self.n).filter(bound).collect()
    }

    /// The levels that are at or under both i and j.
    fn lower_bounds(&self, i: usize, j: usize) -> Vec<usize> {
        let bound = |l: &usize| self.at_or_under(*l, i) && self.at_or_under(*l, j);
        (0..self.n).filter(bound).collect()
    }

    /// Whether a law holds for every pair of levels, in both orders.
    fn every_pair(&self, law: impl Fn(usize, usize) -> bool) -> bool {
        (0..self.n).all(|i| (0..self.n).all(|j| law(i, j)))
    }
}
