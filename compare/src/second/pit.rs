//! Links and weights: rules 1 to 3.

/// A set of bones: bone b is the bit worth 2 to the power b.
pub type Bones = u128;

pub fn only(bone: usize) -> Bones {
    1 << bone
}

pub fn has(set: Bones, bone: usize) -> bool {
    set >> bone & 1 == 1
}

pub fn least(set: Bones) -> usize {
    set.trailing_zeros() as usize
}

/// The bones of a set, upwards.
pub fn bones_of(set: Bones) -> impl Iterator<Item = usize> {
    (0..128).filter(move |bone| has(set, *bone))
}

#[derive(Clone, Copy, PartialEq, Eq, Debug)]
pub struct Link {
    pub a: usize,
    pub b: usize,
    pub tally: u64,
}

impl Link {
    pub fn from_bytes(bytes: &[u8]) -> Link {
        Link { a: bytes[0].into(), b: bytes[1].into(), tally: u16::from_be_bytes([bytes[2], bytes[3]]).into() }
    }

    pub fn to_bytes(self) -> [u8; 4] {
        let [high, low] = (self.tally as u16).to_be_bytes();
        [self.a as u8, self.b as u8, high, low]
    }
}

/// Bones, links and a threshold that passed the rows 1 to 6.
pub struct Pit {
    pub n: usize,
    pub k: u64,
    pub links: Vec<Link>,
}

impl Pit {
    pub fn all(&self) -> Bones {
        Bones::MAX >> (128 - self.n)
    }

    /// Rule 2: the tallies of the links with one end on each side.
    pub fn weight(&self, side: Bones, other: Bones) -> u64 {
        let across = |link: &&Link| has(side, link.a) && has(other, link.b) || has(other, link.a) && has(side, link.b);
        self.links.iter().filter(across).map(|link| link.tally).sum()
    }
}
