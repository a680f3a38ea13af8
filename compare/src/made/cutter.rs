//! Another cutter: lawful runs whose piles, splits and order are random.

use super::rng::Rng;
use crate::second::pit::{bones_of, has, least, only, Bones, Pit};
use crate::second::record::{Cut, Heap};

/// A finished lawful run.
pub fn run(pit: &Pit, rng: &mut Rng) -> Vec<Cut> {
    let mut heap = Heap::new(pit);
    let mut open = heap.piles.clone();
    let mut cuts = Vec::new();
    while !open.is_empty() {
        let pile = open.swap_remove(rng.below(open.len()));
        if let Some(side) = random_light_side(pit, pile, rng) {
            let cut = cut_of(pit, pile, side);
            heap.cut(&cut);
            cuts.push(cut);
            open.extend([side, pile & !side].into_iter().filter(|set| set.count_ones() > 1));
        }
    }
    cuts
}

/// The cut of a pile along a split; the side moves out that does not hold the pile's least bone.
fn cut_of(pit: &Pit, pile: Bones, side: Bones) -> Cut {
    let side = moving(pile, side);
    Cut { pile: least(pile) as u8, weight: pit.weight(side, pile & !side) as u32, side }
}

fn moving(pile: Bones, side: Bones) -> Bones {
    if has(side, least(pile)) {
        pile & !side
    } else {
        side
    }
}

/// A side of a light split that does not hold the least bone: by chance where chance finds one, else by flows from a random bone.
fn random_light_side(pit: &Pit, pile: Bones, rng: &mut Rng) -> Option<Bones> {
    for _ in 0..4 {
        let side = moving(pile, random_side(pile, rng));
        if side != 0 && side != pile && pit.weight(side, pile & !side) < pit.k {
            return Some(side);
        }
    }
    flow_side(pit, pile, rng).map(|side| moving(pile, side))
}

fn random_side(pile: Bones, rng: &mut Rng) -> Bones {
    let one = rng.pick(&bones_of(pile).collect::<Vec<_>>());
    if rng.one_in(2) {
        return only(one);
    }
    let chances = rng.within(2, 6);
    bones_of(pile).filter(|_| rng.one_in(chances)).fold(0, |side, bone| side | only(bone))
}

fn flow_side(pit: &Pit, pile: Bones, rng: &mut Rng) -> Option<Bones> {
    let mut order: Vec<usize> = bones_of(pile).collect();
    rng.shuffle(&mut order);
    let mut sources = only(order[0]);
    for &bone in &order[1..] {
        if let Some(side) = pit.parting(pile, sources, bone) {
            return Some(side);
        }
        sources |= only(bone);
    }
    None
}
