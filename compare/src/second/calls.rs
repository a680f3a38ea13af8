//! Grouping, checking and thinning: what each is to answer, and the refusals that each tries in order.

use super::pit::{Link, Pit};
use super::record::{cuts_of, judge_run, Heap, ENTRY};
use super::{refuse_if, Refusal};

const MOST_BONES: u64 = 128;
const MOST_LINKS: usize = 4096;

/// Everything that a call may be given: numbers, runs of bytes, and the lengths of the room lent for writing. Each call has its part.
#[derive(Clone, Default)]
pub struct Job {
    pub n: u64,
    pub k: u64,
    pub links: Vec<u8>,
    pub record: Vec<u8>,
    pub text: Vec<u8>,
    pub labels: usize,
    pub space: usize,
    /// In links, but in bytes where links are written as bytes.
    pub link_room: usize,
    pub text_room: usize,
}

/// Rows 1 to 6.
pub fn judge_links(n: u64, k: u64, links: &[u8]) -> Result<Pit, Refusal> {
    refuse_if(n == 0 || n > MOST_BONES, 1, 0)?;
    refuse_if(k == 0 || k > 65_535, 2, 0)?;
    refuse_if(links.len() % 4 != 0 || links.len() / 4 > MOST_LINKS, 3, 0)?;
    let links: Vec<Link> = links.chunks(4).map(Link::from_bytes).collect();
    for (place, link) in links.iter().enumerate() {
        refuse_if(link.a as u64 >= n || link.b as u64 >= n, 4, place)?;
        refuse_if(link.a == link.b, 5, place)?;
        refuse_if(link.tally == 0, 6, place)?;
    }
    Ok(Pit { n: n as usize, k, links })
}

/// Row 9.
pub fn judge_record_length(n: usize, record: &[u8]) -> Result<(), Refusal> {
    refuse_if(record.len() % ENTRY != 0 || record.len() / ENTRY > n - 1, 9, 0)
}

/// The heap that the given record leaves, or checking's first refusal; grouping's with row 8.
fn judge_job(job: &Job, grouping: bool) -> Result<(Pit, Heap), Refusal> {
    let pit = judge_links(job.n, job.k, &job.links)?;
    refuse_if(job.labels < pit.n, 7, 0)?;
    refuse_if(grouping && job.space < ENTRY * (pit.n - 1), 8, 0)?;
    judge_record_length(pit.n, &job.record)?;
    let heap = judge_run(&pit, &cuts_of(&job.record))?;
    Ok((pit, heap))
}

pub fn judge_grouping(job: &Job) -> Result<(Pit, Heap), Refusal> {
    judge_job(job, true)
}

pub fn judge_checking(job: &Job) -> Result<(Pit, Heap), Refusal> {
    judge_job(job, false)
}

/// Thinning's refusals: rows 1 to 6, 14; the room is counted in whole links.
pub fn judge_thinning(n: u64, k: u64, links: &[u8], room: usize) -> Result<Pit, Refusal> {
    let pit = judge_links(n, k, links)?;
    refuse_if(room < pit.links.len(), 14, 0)?;
    Ok(pit)
}

/// The links whose ends share a group, in order, as bytes.
pub fn kept(pit: &Pit, labels: &[u8]) -> Vec<u8> {
    let share = |link: &&Link| labels[link.a] == labels[link.b];
    pit.links.iter().filter(share).flat_map(|link| link.to_bytes()).collect()
}

/// Thinning: the links that it keeps.
pub fn thinning(n: u64, k: u64, links: &[u8], room: usize) -> Result<Vec<u8>, Refusal> {
    let pit = judge_thinning(n, k, links, room)?;
    Ok(kept(&pit, &pit.labels()))
}
