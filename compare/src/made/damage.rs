//! Bad calls, bad records and damaged texts, made from good ones. What each is to answer, the second program says: some of them
//! turn out to be good after all.

use super::rng::Rng;
use crate::second::calls::Job;
use crate::second::pit::{bones_of, only, Pit};
use crate::second::record::{record_of, Cut, Heap};
use crate::second::text::{line, payload_length};

/// A run with one cut changed, in place `place`: in its pile, its side, its weight or its order. The place after the last cut takes
/// one more cut instead, if the run may be longer.
pub fn bad_runs(pit: &Pit, cuts: &[Cut], place: usize, rng: &mut Rng) -> Vec<Vec<u8>> {
    let mut bad = Vec::new();
    if place < cuts.len() {
        bad.extend(reordered(pit, cuts, place, rng));
    }
    if place < pit.n - 1 {
        let other = other_cut(pit, &cuts[..place], rng);
        let good = cuts.get(place).copied().unwrap_or(other);
        bad.extend(changed_cuts(pit, good, rng).into_iter().chain([other]).map(|cut| with(cuts, place, cut)));
    }
    bad.iter().map(|cuts| record_of(cuts)).collect()
}

/// The cut swapped with another, made twice, and left out.
fn reordered(pit: &Pit, cuts: &[Cut], place: usize, rng: &mut Rng) -> [Vec<Cut>; 3] {
    let mut swapped = cuts.to_vec();
    swapped.swap(place, rng.below(cuts.len()));
    let mut twice = cuts.to_vec();
    twice.insert(place, cuts[place]);
    twice.truncate(pit.n - 1);
    let mut dropped = cuts.to_vec();
    dropped.remove(place);
    [swapped, twice, dropped]
}

fn with(cuts: &[Cut], place: usize, cut: Cut) -> Vec<Cut> {
    let mut changed = cuts.to_vec();
    changed.resize(changed.len().max(place + 1), cut);
    changed[place] = cut;
    changed
}

fn changed_cuts(pit: &Pit, good: Cut, rng: &mut Rng) -> Vec<Cut> {
    let bone = rng.below(128);
    let near = rng.below(pit.n);
    vec![
        Cut { pile: good.pile.wrapping_add(1), ..good },
        Cut { pile: rng.below(pit.n) as u8, ..good },
        Cut { pile: rng.below(256) as u8, ..good },
        Cut { side: 0, ..good },
        Cut { side: good.side | only(good.pile as usize), ..good },
        Cut { side: good.side ^ only(bone), ..good },
        Cut { side: good.side ^ only(near), ..good },
        Cut { side: good.side | only(127), ..good },
        Cut { weight: good.weight ^ 1 << rng.below(32), ..good },
        Cut { weight: good.weight + 1, ..good },
        Cut { weight: rng.next() as u32, ..good },
    ]
}

/// A cut of the heap that a run leaves, with its true weight, whatever that is.
fn other_cut(pit: &Pit, before: &[Cut], rng: &mut Rng) -> Cut {
    let mut heap = Heap::new(pit);
    for cut in before {
        heap.cut(cut);
    }
    let pile = rng.pick(&heap.piles);
    let side = bones_of(pile).skip(1).filter(|_| rng.one_in(2)).fold(0, |side, bone| side | only(bone));
    Cut { pile: pile.trailing_zeros() as u8, weight: pit.weight(side, pile & !side) as u32, side }
}

/// A call with its numbers, its links or its lengths spoilt, often in more than one way.
pub fn bad_job(job: &Job, rng: &mut Rng) -> Job {
    let mut bad = job.clone();
    for _ in 0..rng.within(1, 3) {
        spoil(&mut bad, rng);
    }
    bad
}

fn spoil(job: &mut Job, rng: &mut Rng) {
    // Numbers whose low bytes look good.
    let (n, k) = (job.n % 256, job.k % 65_536);
    match rng.below(12) {
        0 => job.n = rng.pick(&[0, 129, 130, 255, 256 + n, 65_536 + n, (1 << 32) + n, u64::MAX]),
        1 => job.k = rng.pick(&[0, 65_536, 65_536 + k, (1 << 32) + k, u64::MAX]),
        2 => job.n = 1 + rng.below(128) as u64,
        3 => job.links.resize(job.links.len() + rng.within(1, 3), 1),
        4 => job.links.resize(rng.pick(&[16_384, 16_385, 16_388, 16_392]), 1),
        5 | 6 => spoil_link(job, rng),
        7 => job.labels = rng.below(job.labels + 1),
        8 => job.space = rng.below(job.space + 1),
        9 => job.record.resize(rng.below(job.record.len() + 30), 0),
        10 => job.record.resize(21 * rng.below(job.n.min(300) as usize + 2), 0),
        _ => job.labels += 1,
    }
}

fn spoil_link(job: &mut Job, rng: &mut Rng) {
    if job.links.len() < 4 {
        return;
    }
    let at = 4 * rng.below(job.links.len() / 4);
    match rng.below(4) {
        0 => job.links[at + rng.below(2)] = rng.within(job.n.min(200) as usize, 255) as u8,
        1 => job.links[at] = job.links[at + 1],
        2 => job.links[at + 2..at + 4].fill(0),
        _ => job.links[at + rng.below(4)] = rng.next() as u8,
    }
}

/// Every byte changed in turn, and every byte left out, doubled, or made the last.
pub fn damaged_bytes(text: &[u8], rng: &mut Rng) -> Vec<Vec<u8>> {
    let mut texts = Vec::new();
    for at in 0..text.len() {
        for byte in other_bytes(text[at], rng) {
            let mut changed = text.to_vec();
            changed[at] = byte;
            texts.push(changed);
        }
        let mut without = text.to_vec();
        without.remove(at);
        texts.push(without);
        let mut doubled = text.to_vec();
        doubled.insert(at, text[at]);
        texts.push(doubled);
        texts.push(text[..at].to_vec());
    }
    texts
}

/// One byte changed, left out or made the last.
pub fn damaged_byte(text: &[u8], rng: &mut Rng) -> Vec<u8> {
    let mut damaged = text.to_vec();
    if text.is_empty() {
        return damaged;
    }
    let at = rng.below(text.len());
    let others = other_bytes(text[at], rng);
    match rng.below(4) {
        0 => damaged.truncate(at),
        1 => drop(damaged.remove(at)),
        _ => damaged[at] = rng.pick(&others),
    }
    damaged
}

fn other_bytes(byte: u8, rng: &mut Rng) -> Vec<u8> {
    let mut bytes = vec![byte.to_ascii_uppercase(), b'\n', b'0', b'a' + rng.below(6) as u8, byte ^ 1, byte ^ 0x80, rng.next() as u8];
    bytes.retain(|other| *other != byte);
    bytes
}

fn lines(text: &[u8]) -> Vec<&[u8]> {
    text.split_inclusive(|byte| *byte == b'\n').collect()
}

/// Lines dropped, doubled, swapped and cut short.
pub fn damaged_lines(text: &[u8], rng: &mut Rng) -> Vec<Vec<u8>> {
    let good = lines(text);
    let mut texts = Vec::new();
    for at in 0..good.len() {
        let mut dropped = good.clone();
        dropped.remove(at);
        texts.push(dropped.concat());
        let mut doubled = good.clone();
        doubled.insert(at, good[at]);
        texts.push(doubled.concat());
        let mut swapped = good.clone();
        swapped.swap(at, rng.below(good.len()));
        texts.push(swapped.concat());
        let mut short = good.clone();
        short[at] = &good[at][..rng.below(good[at].len())];
        texts.push(short.concat());
    }
    texts
}

/// Frames put where they may not stand, or with another payload: most sums are right, and so, half the time, is the close.
pub fn damaged_frames(text: &[u8], rng: &mut Rng) -> Vec<Vec<u8>> {
    let good = lines(text);
    let mut texts = Vec::new();
    for at in 0..=good.len() {
        for kind in 1..=7 {
            let put = random_frame(kind, rng);
            let spoilt = wrong_sum(&put, rng);
            for frame in [&put, &spoilt] {
                let mut more = good.clone();
                more.insert(at, frame.as_bytes());
                texts.push(closed_again(&more, rng));
            }
        }
    }
    for at in 0..good.len() {
        for _ in 0..6 {
            let put = changed_frame(good[at], rng);
            let mut other = good.clone();
            other[at] = put.as_bytes();
            texts.push(other.concat());
        }
    }
    texts
}

fn random_frame(kind: u8, rng: &mut Rng) -> String {
    let small = rng.one_in(2);
    let payload: Vec<u8> = (0..payload_length(kind).unwrap_or(0)).map(|_| rng.below(if small { 6 } else { 256 }) as u8).collect();
    line(kind, &payload)
}

/// The line with another byte for its sum.
fn wrong_sum(line: &str, rng: &mut Rng) -> String {
    let (frame, sum) = line.trim_end().split_at(line.len() - 3);
    let sum = u8::from_str_radix(sum, 16).unwrap_or(0).wrapping_add(rng.within(1, 255) as u8);
    format!("{frame}{sum:02x}\n")
}

/// A close that counts what stands before it, in the place of one that does not.
fn closed_again(lines: &[&[u8]], rng: &mut Rng) -> Vec<u8> {
    let mut text = lines.concat();
    let last = lines.last().map_or(0, |line| line.len());
    if rng.one_in(2) && lines.last().is_some_and(|line| line.starts_with(b"06")) {
        text.truncate(text.len() - last);
        let frames = lines.len() - 1;
        text.extend(line(6, &[(frames >> 8) as u8, frames as u8]).bytes());
    }
    text
}

/// The frame of a line with one byte of its payload changed, or its kind, and the sum made right again.
fn changed_frame(good: &[u8], rng: &mut Rng) -> String {
    let digits = std::str::from_utf8(good).unwrap_or("").trim_end();
    let mut bytes: Vec<u8> = (0..digits.len() / 2).filter_map(|i| u8::from_str_radix(&digits[2 * i..2 * i + 2], 16).ok()).collect();
    bytes.pop();
    let at = rng.below(bytes.len());
    bytes[at] = match rng.below(4) {
        0 => bytes[at].wrapping_add(1),
        1 => bytes[at].wrapping_sub(1),
        2 => 0,
        _ => rng.next() as u8,
    };
    line(bytes[0], &bytes[1..])
}
