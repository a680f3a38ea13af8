//! Thinning a list in both forms, good and spoilt, in just the room asked for, in more and in less.

use super::{enough, short};
use crate::call::Call;
use crate::case::Case;
use crate::made::damage;
use crate::made::rng::Rng;
use crate::second::calls::Job;

pub fn cases(job: &Job, rng: &mut Rng) -> Vec<Case> {
    let bad = damage::bad_job(job, rng);
    [job, &bad].into_iter().flat_map(|job| in_rooms(job, rng)).collect()
}

fn in_rooms(job: &Job, rng: &mut Rng) -> Vec<Case> {
    let links = job.links.len() / 4;
    let mut cases = Vec::new();
    for (call, unit) in [(Call::Thinning, 4), (Call::ThinningRecords, 1)] {
        for link_room in [enough(unit * links, rng), short(unit * links, rng)] {
            cases.push(Case::new(call, Job { link_room, ..job.clone() }));
        }
    }
    cases
}
