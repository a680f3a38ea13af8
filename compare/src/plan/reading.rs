//! The reader on texts, in just the room that they ask for, in more and in less.

use super::{enough, short};
use crate::call::Call;
use crate::case::Case;
use crate::made::damage;
use crate::made::rng::Rng;
use crate::second::calls::Job;
use crate::second::record::ENTRY;
use crate::second::text::read;

/// A text of a list in room enough and short of either kind or of both, and the text with a byte damaged.
pub fn cases(text: &[u8], rng: &mut Rng) -> Vec<Case> {
    let mut cases = in_rooms(text, rng);
    cases.push(of_text(&damage::damaged_byte(text, rng), rng));
    cases
}

/// The text in enough room, in less room for links, in less for cuts, and in less for both.
pub fn in_rooms(text: &[u8], rng: &mut Rng) -> Vec<Case> {
    let (links, space) = held(text, rng);
    let (few, little) = (short(links, rng), short(space, rng));
    let rooms = [(enough(links, rng), enough(space, rng)), (few, space), (links, little), (few, little)];
    rooms.into_iter().map(|(links, space)| case(text, links, space)).collect()
}

/// The text in enough room, or now and then in less.
pub fn of_text(text: &[u8], rng: &mut Rng) -> Case {
    let (links, space) = held(text, rng);
    match rng.below(16) {
        0 => case(text, short(links, rng), space),
        1 => case(text, links, short(space, rng)),
        _ => case(text, enough(links, rng), enough(space, rng)),
    }
}

/// What room a text asks for; one that is refused in any room gets some.
fn held(text: &[u8], rng: &mut Rng) -> (usize, usize) {
    match read(text, usize::MAX, usize::MAX) {
        Ok(input) => (input.links.len() / 4, input.record.len()),
        Err(_) => (rng.below(9), ENTRY * rng.below(9)),
    }
}

fn case(text: &[u8], link_room: usize, space: usize) -> Case {
    Case::new(Call::Read, Job { text: text.to_vec(), link_room, space, ..Job::default() })
}
