//! Rules 3 to 5 word for word, for few bones: every subset of the bones, and every split of it.

use super::pit::Pit;

/// The most bones for which every split of every subset is tried: 3 to the power 10.
pub const FEW: usize = 10;

/// For every subset, as a mask, whether it is firm.
pub struct Subsets {
    n: usize,
    firm: Vec<bool>,
}

impl Subsets {
    pub fn new(pit: &Pit) -> Subsets {
        let inside = tallies_inside(pit);
        let firm = (0..1 << pit.n).map(|set| set != 0 && every_split_weighs(&inside, set, pit.k)).collect();
        Subsets { n: pit.n, firm }
    }

    pub fn is_firm(&self, set: u128) -> bool {
        self.firm[set as usize]
    }

    /// The label of a bone: the least bone of the largest firm set that holds it, which is the union of all that do.
    pub fn labels(&self) -> Vec<u8> {
        (0..self.n).map(|bone| self.group(bone).trailing_zeros() as u8).collect()
    }

    fn group(&self, bone: usize) -> usize {
        let union = (0..1 << self.n).filter(|set| set >> bone & 1 == 1 && self.firm[*set]).fold(0, |union, set| union | set);
        assert!(self.firm[union], "the union of firm sets that share a bone is firm");
        union
    }
}

fn tallies_inside(pit: &Pit) -> Vec<u64> {
    let within = |set: usize| pit.links.iter().filter(|link| set >> link.a & set >> link.b & 1 == 1).map(|link| link.tally).sum();
    (0..1 << pit.n).map(within).collect()
}

/// What lies inside the set but inside neither side lies across.
fn every_split_weighs(inside: &[u64], set: usize, k: u64) -> bool {
    let mut side = (set - 1) & set;
    while side != 0 {
        if inside[set] - inside[side] - inside[set & !side] < k {
            return false;
        }
        side = (side - 1) & set;
    }
    true
}
