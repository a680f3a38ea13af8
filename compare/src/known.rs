//! What the second program knows of a list, kept while one list after another is handed over with many records.

use crate::second::brute::{Subsets, FEW};
use crate::second::calls::{judge_links, Job};
use crate::second::flow::names;
use crate::second::pit::{Bones, Pit};
use crate::second::record::Heap;

pub struct Known {
    numbers: (u64, u64),
    links: Vec<u8>,
    pit: Pit,
    groups: Vec<Bones>,
    subsets: Option<Subsets>,
}

impl Known {
    /// The groups by flow; for few bones also by every subset, and both ways must agree.
    fn new(job: &Job) -> Known {
        let pit = judge_links(job.n, job.k, &job.links).unwrap_or_else(|_| panic!("a list that was judged good"));
        let groups = pit.groups();
        let subsets = (pit.n <= FEW).then(|| Subsets::new(&pit));
        if let Some(subsets) = &subsets {
            assert_eq!(subsets.labels(), names(pit.n, &groups), "two ways of the second program: n {} k {} {:?}", pit.n, pit.k, pit.links);
        }
        Known { numbers: (job.n, job.k), links: job.links.clone(), pit, groups, subsets }
    }

    pub fn labels(&self) -> Vec<u8> {
        names(self.pit.n, &self.groups)
    }

    pub fn count(&self) -> usize {
        self.groups.len()
    }

    pub fn is_finished(&self, heap: &Heap) -> bool {
        heap.piles.iter().all(|pile| self.is_firm(*pile))
    }

    fn is_firm(&self, pile: Bones) -> bool {
        match &self.subsets {
            Some(subsets) => subsets.is_firm(pile),
            None => self.groups.contains(&pile) || self.pit.is_firm(pile),
        }
    }
}

/// The list met last.
#[derive(Default)]
pub struct Memory {
    last: Option<Known>,
}

impl Memory {
    /// What is known of the list of a job whose numbers and links are good.
    pub fn of(&mut self, job: &Job) -> &Known {
        let fits = |known: &Known| known.numbers == (job.n, job.k) && known.links == job.links;
        if !self.last.as_ref().is_some_and(fits) {
            self.last = Some(Known::new(job));
        }
        self.last.as_ref().unwrap_or_else(|| unreachable!())
    }
}
