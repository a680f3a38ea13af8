//! What is compared: which cases are made of a list, and which texts of a text.

pub mod calls;
pub mod reading;
pub mod texts;
pub mod thinning;
pub mod writing;

use crate::made::rng::Rng;
use crate::second::calls::Job;
use crate::second::record::{record_of, Cut};

/// Sizes as they are met: many of few bones, where every subset is tried, and some of each larger kind.
pub fn size(turn: usize, rng: &mut Rng) -> usize {
    match turn % 100 {
        0..=69 => rng.within(1, 10),
        70..=94 => rng.within(11, 24),
        95..=98 => rng.within(25, 64),
        _ => rng.within(65, 128),
    }
}

fn with_record(job: &Job, record: Vec<u8>) -> Job {
    Job { record, ..job.clone() }
}

fn some_of(cuts: &[Cut], rng: &mut Rng) -> Vec<u8> {
    record_of(&cuts[..rng.below(cuts.len() + 1)])
}

fn one_of(mut records: Vec<Vec<u8>>, rng: &mut Rng) -> Vec<u8> {
    records.swap_remove(rng.below(records.len()))
}

/// Just the room asked for, or more.
fn enough(asked: usize, rng: &mut Rng) -> usize {
    asked + if rng.one_in(2) { 0 } else { rng.within(1, 100) }
}

/// Less room than is asked for, where anything is: none, a little less, or anything between.
fn short(asked: usize, rng: &mut Rng) -> usize {
    match (asked, rng.below(4)) {
        (0, _) | (_, 0) => 0,
        (_, 1 | 2) => asked - 1,
        _ => rng.below(asked),
    }
}
