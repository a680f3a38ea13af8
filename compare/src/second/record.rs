//! Cuts, heaps and the judging of a run: rules 6 and 7, and the rows 10 to 13.

use super::flow::names;
use super::pit::{has, least, Bones, Pit};
use super::{refuse_if, Refusal};

pub const ENTRY: usize = 21;

#[derive(Clone, Copy, PartialEq, Eq, Debug)]
pub struct Cut {
    pub pile: u8,
    pub weight: u32,
    pub side: Bones,
}

impl Cut {
    pub fn from_bytes(bytes: &[u8]) -> Cut {
        let mut side = 0;
        for bone in 0..128 {
            if bytes[5 + bone / 8] / (1 << (bone % 8)) % 2 == 1 {
                side |= 1 << bone;
            }
        }
        let weight = bytes[1..5].iter().fold(0, |weight, byte| weight * 256 + u32::from(*byte));
        Cut { pile: bytes[0], weight, side }
    }

    pub fn to_bytes(self) -> [u8; ENTRY] {
        let mut bytes = [0; ENTRY];
        bytes[0] = self.pile;
        for i in 0..4 {
            bytes[4 - i] = (self.weight >> (8 * i)) as u8;
        }
        for bone in (0..128).filter(|bone| has(self.side, *bone)) {
            bytes[5 + bone / 8] += 1 << (bone % 8);
        }
        bytes
    }
}

pub fn cuts_of(record: &[u8]) -> Vec<Cut> {
    record.chunks_exact(ENTRY).map(Cut::from_bytes).collect()
}

pub fn record_of(cuts: &[Cut]) -> Vec<u8> {
    cuts.iter().flat_map(|cut| cut.to_bytes()).collect()
}

/// The piles that stand.
#[derive(Clone)]
pub struct Heap {
    pub piles: Vec<Bones>,
}

impl Heap {
    pub fn new(pit: &Pit) -> Heap {
        Heap { piles: vec![pit.all()] }
    }

    /// The rows 10 to 13 on one cut, in place `place`.
    pub fn judge(&self, pit: &Pit, cut: &Cut, place: usize) -> Result<(), Refusal> {
        let pile = self.piles.iter().find(|pile| least(**pile) == usize::from(cut.pile)).copied();
        refuse_if(pile.is_none(), 10, place)?;
        let pile = pile.unwrap_or(0);
        refuse_if(cut.side == 0 || cut.side & !pile != 0 || has(cut.side, least(pile)), 11, place)?;
        let weight = pit.weight(cut.side, pile & !cut.side);
        refuse_if(u64::from(cut.weight) != weight, 12, place)?;
        refuse_if(weight >= pit.k, 13, place)
    }

    /// Makes a cut that was judged lawful.
    pub fn cut(&mut self, cut: &Cut) {
        for pile in &mut self.piles {
            *pile &= !cut.side;
        }
        self.piles.push(cut.side);
    }

    pub fn names(&self, n: usize) -> Vec<u8> {
        names(n, &self.piles)
    }
}

/// The heap that a lawful run leaves, or the first refusal.
pub fn judge_run(pit: &Pit, cuts: &[Cut]) -> Result<Heap, Refusal> {
    let mut heap = Heap::new(pit);
    for (place, cut) in cuts.iter().enumerate() {
        heap.judge(pit, cut, place)?;
        heap.cut(cut);
    }
    Ok(heap)
}
