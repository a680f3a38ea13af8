//! Times of one list: the library, the yardstick, and the filling of the table alone.

use crate::library;
use crate::list::List;
use crate::plain;
use std::hint::black_box;
use std::time::{Duration, Instant};

/// Nanoseconds a call.
pub struct Times {
    pub plain: f64,
    pub library: f64,
    pub fill: f64,
    pub groups: usize,
}

impl Times {
    pub fn ratio(&self) -> f64 {
        self.library / self.plain
    }
}

/// How long a batch of calls is, and how many batches there are; the quickest counts, since other work on the machine only adds.
#[derive(Clone, Copy)]
pub struct Care {
    pub batch: Duration,
    pub batches: usize,
}

/// Buffers that are made once and lent to every call.
pub struct Room {
    labels: Vec<u8>,
    space: Vec<u8>,
    other: Vec<u8>,
    blocks: Box<plain::Blocks>,
}

impl Room {
    pub fn new() -> Room {
        Room { labels: vec![0; 128], space: vec![0; 21 * 127], other: vec![0; 128], blocks: plain::Blocks::new() }
    }

    fn library(&mut self, list: &List) -> usize {
        library::grouping(black_box(list), &mut self.labels, &mut self.space)
    }

    fn plain(&mut self, list: &List) -> usize {
        let list = black_box(list);
        plain::grouping(list.n, list.k as u32, &list.links, &mut self.other, &mut self.space, &mut self.blocks)
    }

    /// Whether both give the same labels and the same number of groups.
    pub fn agree(&mut self, list: &List) -> Result<usize, String> {
        let (count, other) = (self.library(list), self.plain(list));
        if count == other && self.labels[..list.n] == self.other[..list.n] {
            return Ok(count);
        }
        Err(format!(
            "{}: labels differ\nlibrary {count} {:?}\nplain {other} {:?}\n{}",
            list.name,
            &self.labels[..list.n],
            &self.other[..list.n],
            list.text()
        ))
    }

    /// Batches of the library and of the yardstick take turns, so that a busy moment of the machine meets both.
    pub fn times(&mut self, list: &List, care: Care) -> Result<Times, String> {
        let groups = self.agree(list)?;
        let once = Care { batches: 1, ..care };
        let mut times = Times { plain: f64::INFINITY, library: f64::INFINITY, fill: f64::INFINITY, groups };
        for _ in 0..care.batches {
            times.library = times.library.min(self.library_time(list, once));
            times.plain = times.plain.min(self.plain_time(list, once));
            times.fill = times.fill.min(best(once, || fill(list)));
        }
        Ok(times)
    }

    pub fn library_once(&mut self, list: &List) {
        black_box(self.library(list));
    }

    pub fn plain_time(&mut self, list: &List, care: Care) -> f64 {
        best(care, || {
            black_box(self.plain(list));
        })
    }

    pub fn library_time(&mut self, list: &List, care: Care) -> f64 {
        best(care, || {
            black_box(self.library(list));
        })
    }
}

/// A table of noughts and the links added to it: what no grouping can do without.
fn fill(list: &List) {
    let mut table = [[0; 128]; 128];
    plain::fill(&mut table, black_box(&list.links));
    black_box(&table);
}

pub fn best(care: Care, mut call: impl FnMut()) -> f64 {
    let calls = calls_in(care.batch, &mut call);
    (0..care.batches).map(|_| batch(calls, &mut call)).fold(f64::INFINITY, f64::min)
}

/// How many calls fill a batch, by one call after a first that warms the caches.
fn calls_in(length: Duration, call: &mut impl FnMut()) -> usize {
    call();
    let start = Instant::now();
    call();
    let one = start.elapsed().max(Duration::from_nanos(100));
    ((length.as_nanos() / one.as_nanos()) as usize).max(1)
}

fn batch(calls: usize, call: &mut impl FnMut()) -> f64 {
    let start = Instant::now();
    for _ in 0..calls {
        call();
    }
    start.elapsed().as_nanos() as f64 / calls as f64
}
