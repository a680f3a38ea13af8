//! Lists of links of many shapes. Links are written in a random order, either end first, and bones are renumbered at random.

use super::rng::Rng;
use crate::second::calls::Job;
use crate::second::record::ENTRY;

type Triple = (usize, usize, usize);

/// A good list of n bones with an empty record and just the room that grouping asks for.
pub fn list(n: usize, rng: &mut Rng) -> Job {
    let (mut links, k) = links_and_threshold(n, rng);
    let mut order: Vec<usize> = (0..n).collect();
    rng.shuffle(&mut order);
    rng.shuffle(&mut links);
    let bytes = links.into_iter().flat_map(|(a, b, tally)| link_bytes(order[a], order[b], tally, rng)).collect();
    Job { n: n as u64, k: k as u64, links: bytes, labels: n, space: ENTRY * (n - 1), ..Job::default() }
}

fn links_and_threshold(n: usize, rng: &mut Rng) -> (Vec<Triple>, usize) {
    if n > 2 && rng.one_in(if n > 64 { 3 } else { 12 }) {
        return bridged(n, rng);
    }
    let mut links = if n == 1 { Vec::new() } else { shape(n, rng) };
    links.truncate(4096);
    let k = threshold(n, &links, rng);
    (links, k)
}

fn link_bytes(a: usize, b: usize, tally: usize, rng: &mut Rng) -> [u8; 4] {
    let (a, b) = if rng.one_in(2) { (a, b) } else { (b, a) };
    [a as u8, b as u8, (tally >> 8) as u8, tally as u8]
}

/// A threshold near which something happens: small, about what a bone has, or anything.
fn threshold(n: usize, links: &[Triple], rng: &mut Rng) -> usize {
    let total: usize = links.iter().map(|link| link.2).sum();
    let share = (2 * total / n).max(1);
    let k = match rng.below(8) {
        0..=2 => rng.within(1, 6),
        3..=5 => rng.within(share / 2, share + 1),
        6 => rng.within(1, share * 2),
        _ => rng.within(1, 65_535),
    };
    k.clamp(1, 65_535)
}

fn shape(n: usize, rng: &mut Rng) -> Vec<Triple> {
    match rng.below(12) {
        0 => random(n, 3 * n, 3, rng),
        1 => random(n, n * n, 2, rng),
        2 => (0..4096).map(|_| link(n, 9, rng)).collect(),
        3 => random(n, 2 * n, 65_535, rng),
        4 => heavy(n, rng),
        5 => blocks(n, 3, rng),
        6 => blocks(n, 1, rng),
        7 => steps(n, rng),
        8 => complete(n, rng),
        9 => tree(n, rng),
        10 => cactus(n, rng),
        _ => halves(n, rng),
    }
}

fn pair(n: usize, rng: &mut Rng) -> (usize, usize) {
    let a = rng.below(n);
    (a, (a + rng.within(1, n - 1)) % n)
}

fn link(n: usize, most: usize, rng: &mut Rng) -> Triple {
    let (a, b) = pair(n, rng);
    (a, b, rng.within(1, most))
}

/// Up to `count` links of tallies up to `most`.
fn random(n: usize, count: usize, most: usize, rng: &mut Rng) -> Vec<Triple> {
    (0..rng.below(count + 1)).map(|_| link(n, most, rng)).collect()
}

/// Tallies of 65,535, up to 4,096 of them.
fn heavy(n: usize, rng: &mut Rng) -> Vec<Triple> {
    let count = if rng.one_in(4) { 4096 } else { rng.below(3 * n) };
    (0..count).map(|_| pair(n, rng)).map(|(a, b)| (a, b, 65_535)).collect()
}

/// Blocks that are closely linked, and single links between them.
fn blocks(n: usize, most: usize, rng: &mut Rng) -> Vec<Triple> {
    let size = rng.within(2, n.min(12));
    let mut links = Vec::new();
    for a in 0..n {
        for b in (a + 1..n).filter(|b| b / size == a / size) {
            if !rng.one_in(5) {
                links.push((a, b, rng.within(1, most)));
            }
        }
        if a >= size && rng.one_in(3) {
            links.push((a, rng.below(a), 1));
        }
    }
    links
}

/// Every bone linked to those some steps further round; at times one link is missing, so that bone after bone falls off.
fn steps(n: usize, rng: &mut Rng) -> Vec<Triple> {
    let most = rng.within(1, 4.min(n - 1));
    let tally = rng.within(1, 3);
    let mut links: Vec<Triple> = (0..n).flat_map(|a| (1..=most).map(move |step| (a, (a + step) % n, tally))).collect();
    if rng.one_in(2) {
        links.pop();
    }
    links
}

fn complete(n: usize, rng: &mut Rng) -> Vec<Triple> {
    let size = n.min(91);
    let most = rng.within(1, 2);
    (0..size).flat_map(|a| (a + 1..size).map(move |b| (a, b))).map(|(a, b)| (a, b, rng.within(1, most))).collect()
}

fn tree(n: usize, rng: &mut Rng) -> Vec<Triple> {
    let reach = rng.within(1, n);
    (1..n).map(|a| (a, a - 1 - rng.below(reach.min(a)), rng.within(1, 4))).collect()
}

/// Rings that hang on one another by a bone or by a link.
fn cactus(n: usize, rng: &mut Rng) -> Vec<Triple> {
    let mut links = Vec::new();
    let mut from = 0;
    while from + 1 < n {
        let to = (from + rng.within(1, 9)).min(n - 1);
        links.extend((from..to).map(|a| (a, a + 1, 1)));
        if to > from + 1 {
            links.push((to, from, 1));
        }
        from = to;
        if rng.one_in(2) && from + 1 < n {
            links.push((from, from + 1, 1));
            from += 1;
        }
    }
    links
}

/// Two halves of three links a bone, and few links between them: no bone is light by itself.
fn halves(n: usize, rng: &mut Rng) -> Vec<Triple> {
    let mut links = Vec::new();
    for (from, to) in [(0, n / 2), (n / 2, n)] {
        let size = to - from;
        let mut mates: Vec<usize> = (from..to).collect();
        rng.shuffle(&mut mates);
        if size > 1 {
            links.extend((0..size).map(|a| (from + a, from + (a + 1) % size, 1)));
            links.extend(mates.chunks_exact(2).map(|two| (two[0], two[1], 1)));
        }
    }
    for _ in 0..rng.below(4) {
        links.push((rng.below(n / 2), rng.within(n / 2, n - 1), 1));
    }
    links
}

/// Parts whose bones have equal tallies, of k or one more, and links from part to part that fall just short of k: hardly a bone is tied to
/// a set that grows, and no bone is light by itself.
fn bridged(n: usize, rng: &mut Rng) -> (Vec<Triple>, usize) {
    let steps = rng.within(1, 6);
    let k = 2 * steps - rng.below(2);
    let parts = rng.within(1, (n / (2 * steps + 1)).clamp(1, 4));
    let size = n / parts;
    let mut links = Vec::new();
    for from in (0..parts).map(|part| part * size) {
        links.extend(equal(from, if from + 2 * size > n { n - from } else { size }, steps, rng));
    }
    for from in (1..parts).map(|part| part * size) {
        links.push((rng.below(from), rng.within(from, n - 1), (k - 1).max(1)));
    }
    (links, k)
}

/// Each bone linked with those up to so many steps round, or so many rings through all bones in random orders.
fn equal(from: usize, size: usize, steps: usize, rng: &mut Rng) -> Vec<Triple> {
    let near = rng.one_in(2);
    let mut ring: Vec<usize> = (from..from + size).collect();
    let mut links = Vec::new();
    for step in 1..=steps {
        if !near {
            rng.shuffle(&mut ring);
        }
        let ahead = if near { step } else { 1 };
        links.extend((0..size).map(|a| (ring[a], ring[(a + ahead) % size], 1)).filter(|link| link.0 != link.1));
    }
    links
}
