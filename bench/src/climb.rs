//! A search for bad lists: from a list that is slow already, small random changes are kept whenever they make it worse.

use crate::list::List;
use crate::measure::{Care, Room};
use crate::rng::Rng;
use std::time::{Duration, Instant};

const QUICK: Care = Care { batch: Duration::from_micros(300), batches: 3 };
const SURE: Care = Care { batch: Duration::from_millis(1), batches: 7 };

/// What makes a list bad: the higher, the worse.
#[derive(Clone, Copy)]
pub enum Aim {
    Time,
    Ratio,
}

fn badness(aim: Aim, list: &List, care: Care, room: &mut Room) -> f64 {
    match aim {
        Aim::Time => room.library_time(list, care),
        Aim::Ratio => room.library_time(list, care) / room.plain_time(list, care),
    }
}

/// The worst list met within the given time, and how bad it is.
pub fn climb(start: &List, aim: Aim, length: Duration, rng: &mut Rng, room: &mut Room) -> (List, f64) {
    let end = Instant::now() + length;
    let mut worst = start.clone();
    let mut height = badness(aim, &worst, SURE, room);
    while Instant::now() < end {
        let next = changed(&worst, rng);
        if badness(aim, &next, QUICK, room) <= height {
            continue;
        }
        // A list that looks worse may only have been disturbed: it must look worse under care too.
        let sure = badness(aim, &next, SURE, room);
        if sure > height {
            worst = next;
            height = sure;
        }
    }
    worst.name = format!("climbed from {}", start.name);
    (worst, height)
}

fn changed(list: &List, rng: &mut Rng) -> List {
    let mut next = list.clone();
    for _ in 0..1 << rng.below(5) {
        change(&mut next, rng);
    }
    next
}

fn change(list: &mut List, rng: &mut Rng) {
    let at = if list.links.is_empty() { 0 } else { 4 * rng.below(list.count()) };
    match rng.below(8) {
        0 | 1 if list.count() < 4096 => add(list, rng),
        2 | 3 if list.count() > 1 => drop(list.links.drain(at..at + 4)),
        4 | 5 if list.count() > 0 => rewire(list, at, rng),
        6 if list.count() > 0 => retally(list, at, rng),
        7 => list.k = (list.k + rng.within(0, 2)).clamp(2, 65_536) - 1,
        _ => {}
    }
}

fn add(list: &mut List, rng: &mut Rng) {
    let a = rng.below(list.n);
    let b = (a + rng.within(1, list.n - 1)) % list.n;
    let tally = 1 + rng.below(list.k.min(65_535));
    list.link(a, b, if rng.below(2) == 0 { 1 } else { tally });
}

fn rewire(list: &mut List, at: usize, rng: &mut Rng) {
    let end = at + rng.below(2);
    let other = list.links[at + at + 1 - end] as usize;
    list.links[end] = ((other + rng.within(1, list.n - 1)) % list.n) as u8;
}

fn retally(list: &mut List, at: usize, rng: &mut Rng) {
    let old = (list.links[at + 2] as usize) << 8 | list.links[at + 3] as usize;
    let new = match rng.below(3) {
        0 => old + 1,
        1 => old - 1,
        _ => 1 + rng.below(list.k),
    };
    let new = new.clamp(1, 65_535);
    list.links[at + 2] = (new >> 8) as u8;
    list.links[at + 3] = new as u8;
}
