//! The two writers on a list: with another cutter's run so far and to its end, with a spoilt run, and spoilt; in enough room and in less.

use super::{enough, one_of, short, some_of, with_record};
use crate::call::Call;
use crate::case::Case;
use crate::made::damage;
use crate::made::rng::Rng;
use crate::second::calls::Job;
use crate::second::pit::Pit;
use crate::second::record::{record_of, Cut, ENTRY};

/// Links of a list whose input text is long: such texts are written for one list in eight.
const MANY: usize = 400;

pub fn cases(job: &Job, pit: &Pit, cuts: &[Cut], rng: &mut Rng) -> Vec<Case> {
    let mut jobs = vec![with_record(job, some_of(cuts, rng)), with_record(job, record_of(cuts))];
    if pit.n > 1 {
        let place = rng.below(cuts.len() + 1).min(pit.n - 2);
        jobs.push(with_record(job, one_of(damage::bad_runs(pit, cuts, place, rng), rng)));
    }
    jobs.push(damage::bad_job(&jobs[0], rng));
    let long = pit.links.len() > MANY && !rng.one_in(8);
    let calls: &[Call] = if long { &[Call::WriteResult] } else { &[Call::WriteInput, Call::WriteResult] };
    jobs.iter().flat_map(|job| calls.iter().flat_map(|call| in_rooms(*call, job, rng)).collect::<Vec<_>>()).collect()
}

fn in_rooms(call: Call, job: &Job, rng: &mut Rng) -> [Case; 2] {
    let asked = length(call, job);
    [enough(asked, rng), short(asked, rng)].map(|text_room| Case::new(call, Job { text_room, ..job.clone() }))
}

/// The length of the text, where it can be written: head and close, and the lines of links, of cuts and of labels.
fn length(call: Call, job: &Job) -> usize {
    let cuts = job.record.len() / ENTRY;
    match call {
        Call::WriteInput => 11 + 9 + 13 * (job.links.len() / 4) + 47 * cuts,
        _ => 11 + 9 + 9 * job.n.min(128) as usize + 47 * cuts,
    }
}
