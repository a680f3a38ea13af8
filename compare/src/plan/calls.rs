//! Grouping and checking on a list, and one in three of the cases over records too.

use super::{some_of, with_record};
use crate::call::Call;
use crate::case::Case;
use crate::library::Done;
use crate::made::damage;
use crate::made::rng::Rng;
use crate::second::calls::Job;
use crate::second::pit::Pit;
use crate::second::record::{record_of, Cut, ENTRY};

/// The calls on one list: with more room than is asked for, with another cutter's run at every (or some) length, with spoilt runs and
/// with spoilt calls. Lists that are not looked at thoroughly get a few of each.
pub fn cases(job: &Job, pit: &Pit, cuts: &[Cut], thorough: bool, rng: &mut Rng) -> Vec<Case> {
    let mut cases = both(roomier(job, rng)).to_vec();
    cases.push(Case::new(Call::Checking, job.clone()));
    let places = if thorough { places(cuts.len() + 1, rng) } else { vec![rng.below(cuts.len() + 1)] };
    for &place in &places {
        cases.extend(both(with_record(job, record_of(&cuts[..place]))));
    }
    for &place in &places {
        let mut bad = damage::bad_runs(pit, cuts, place, rng);
        rng.shuffle(&mut bad);
        let some = if thorough { bad.len() } else { 1 };
        cases.extend(bad.into_iter().take(some).flat_map(|record| both(with_record(job, record))));
    }
    for _ in 0..if thorough { 8 } else { 1 } {
        cases.extend(both(damage::bad_job(&with_record(job, some_of(cuts, rng)), rng)));
    }
    cases.into_iter().flat_map(|case| in_forms(case, rng)).collect()
}

/// The run that grouping made, handed back to both calls in both forms: it is finished, and nothing is added.
pub fn handed_back(job: &Job, done: &Done) -> Vec<Case> {
    let groups = done.told[2] as usize;
    let back = both(with_record(job, done.room(1, ENTRY * (groups - 1)).to_vec()));
    back.iter().map(Case::over_records).chain(back.clone()).collect()
}

fn both(job: Job) -> [Case; 2] {
    [Case::new(Call::Grouping, job.clone()), Case::new(Call::Checking, job)]
}

/// The two forms of a case stand together, so that the second program need not look at the list again.
fn in_forms(case: Case, rng: &mut Rng) -> Vec<Case> {
    if rng.one_in(3) {
        vec![case.over_records(), case]
    } else {
        vec![case]
    }
}

fn roomier(job: &Job, rng: &mut Rng) -> Job {
    Job { labels: job.labels + rng.below(200), space: job.space + rng.below(3000), ..job.clone() }
}

/// All places where they are few, or now and then; else some of them, the first and the last among them.
fn places(count: usize, rng: &mut Rng) -> Vec<usize> {
    if count <= 12 || rng.one_in(40) {
        return (0..count).collect();
    }
    let mut places = vec![0, count - 1];
    places.extend((0..6).map(|_| rng.below(count)));
    places
}
