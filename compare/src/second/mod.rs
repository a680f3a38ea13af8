//! The second program: document 01 once more, from the document alone and by other ways than the product's. Weights are summed over
//! the list of links itself, groups come from exact flows (and, for few bones, from every subset), heaps are lists of sets.

pub mod answer;
pub mod brute;
pub mod calls;
pub mod flow;
pub mod pit;
pub mod record;
pub mod text;

pub use answer::answer;

/// A row of the refusal table and its place.
#[derive(Clone, Copy, PartialEq, Eq, Debug)]
pub struct Refusal {
    pub number: u32,
    pub place: u32,
}

/// A refusal if it applies; `?` then gives the first of a list in its order.
pub fn refuse_if(applies: bool, number: u32, place: usize) -> Result<(), Refusal> {
    if applies {
        Err(Refusal { number, place: place as u32 })
    } else {
        Ok(())
    }
}

/// The run that finishes a run so far, by the second program's own cuts.
pub fn finish(pit: &pit::Pit, given: Vec<record::Cut>) -> Vec<record::Cut> {
    let mut cuts = given;
    let mut heap = record::Heap::new(pit);
    cuts.iter().for_each(|cut| heap.cut(cut));
    while let Some(cut) = heap.piles.iter().find_map(|pile| light_cut(pit, *pile)) {
        heap.cut(&cut);
        cuts.push(cut);
    }
    cuts
}

fn light_cut(pit: &pit::Pit, pile: pit::Bones) -> Option<record::Cut> {
    // The side of a light split that is given holds the pile's least bone: the other side moves out.
    let side = pile & !pit.light_side(pile)?;
    Some(record::Cut { pile: pit::least(pile) as u8, weight: pit.weight(side, pile & !side) as u32, side })
}
