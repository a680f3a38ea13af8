//! Families of lists, each made from a bone count and a seed.

use crate::list::List;
use crate::rng::Rng;

pub struct Family {
    pub name: &'static str,
    pub make: fn(usize, &mut Rng) -> List,
}

const fn family(name: &'static str, make: fn(usize, &mut Rng) -> List) -> Family {
    Family { name, make }
}

pub const FAMILIES: &[Family] = &[
    family("sparse", |n, rng| random(n, 2 * n, 3, 3, rng)),
    family("sparse, k 1", |n, rng| random(n, n, 3, 1, rng)),
    family("dense, firm", |n, rng| dense(n, 50, rng)),
    family("dense, some fall", |n, rng| dense(n, 78, rng)),
    family("dense, apart", |n, rng| dense(n, 200, rng)),
    family("planted blocks", planted),
    family("cliques, bridges", |n, rng| cliques(n, 7, rng)),
    family("cliques, k 2", |n, rng| cliques(n, 2, rng)),
    family("cycle, k 2", |n, rng| ring(n, &[1], 2, rng)),
    family("cycle, k 3", |n, rng| ring(n, &[1], 3, rng)),
    family("cycle in order", |n, _| circulant(n, &[1], 2)),
    family("all linked, firm", |n, rng| all_linked(n.min(91), 1, rng)),
    family("all linked, apart", |n, rng| all_linked(n.min(91), 0, rng)),
    family("4096 of 65535", |n, rng| heavy(n, 4096, rng)),
    family("few of 65535", |n, rng| heavy(n, n, rng)),
    family("path, k 2", |n, rng| tree(n, |a| a - 1, rng)),
    family("star, k 2", |n, rng| tree(n, |_| 0, rng)),
    family("cubic, k 3", |n, rng| cubic(n, 3, rng)),
    family("eight pairings, k 5", |n, rng| pairings(n, 8, 5, rng)),
    family("ring of 1 2, k 4", |n, rng| ring(n, &[1, 2], 4, rng)),
    family("ring of 1 2 3, k 6", |n, rng| ring(n, &[1, 2, 3], 6, rng)),
    family("torus, k 4", torus),
    family("cube", cube),
    family("rings on a string", rings),
    family("two cubic halves", halves),
    family("domino 1 2", |n, rng| domino(n, &[1, 2], rng)),
    family("domino 1 2 3", |n, rng| domino(n, &[1, 2, 3], rng)),
    family("domino torus", domino_torus),
    family("weighted ring", weighted_ring),
    family("ring, weak chords", ring_with_chords),
    family("circulant, k", |n, rng| near(n, n / 2, rng)),
    family("circulant, k + 1", |n, rng| near(n, n / 2 + 1, rng)),
    family("pairs that peel", peeling),
    family("no links", |n, _| List::new(n, 1)),
    family("tree of depth d", |n, rng| tree(n, |a| (a - 1) / 2, rng)),
    family("ladder, k 2", |n, rng| ladder(n, 2, rng)),
    family("ladder, k 3", |n, rng| ladder(n, 3, rng)),
    family("ring of cliques, weak chords", ring_of_cliques),
    family("two-trees", |n, rng| two_tree(n, 1, 2, rng)),
    family("two-trees, weighted", |n, rng| two_tree(n, 9, 6, rng)),
    family("regular at k", |n, rng| regular(n, [1, 1, 1], 6, rng)),
    family("regular at k + 1", |n, rng| regular(n, [1, 1, 1], 7, rng)),
    family("weighted regular", |n, rng| regular(n, [5, 11, 17], 66, rng)),
    family("weighted regular, k + 1", |n, rng| regular(n, [5, 11, 17], 67, rng)),
];

fn shuffled(mut list: List, rng: &mut Rng) -> List {
    let order = rng.permutation(list.n);
    list.renumber(&order);
    list
}

fn pair(n: usize, rng: &mut Rng) -> (usize, usize) {
    let a = rng.below(n);
    (a, (a + 1 + rng.below(n - 1)) % n)
}

fn random(n: usize, links: usize, most: usize, k: usize, rng: &mut Rng) -> List {
    let mut list = List::new(n, k);
    for _ in 0..links {
        let (a, b) = pair(n, rng);
        list.link(a, b, rng.within(1, most));
    }
    list
}

/// 4,096 links; k is a share, in percent, of the mean tally of a bone.
fn dense(n: usize, percent: usize, rng: &mut Rng) -> List {
    let mut list = random(n, 4096, 9, 1, rng);
    list.k = (list.tallies() * 2 / n * percent / 100).min(65_535);
    list
}

/// Blocks of some eight to sixteen bones, most of which hold at k = 4, and one weak bridge from each to the next.
fn planted(n: usize, rng: &mut Rng) -> List {
    let size = rng.within(8, 16).min(n / 2);
    let mut list = List::new(n, 4);
    for a in 0..n {
        for b in a + 1..n {
            if a / size == b / size && rng.below(10) < 7 {
                list.link(a, b, rng.within(1, 3));
            }
        }
        if a % size == 0 && a > 0 {
            list.link(a, a - 1, rng.within(1, 3));
        }
    }
    shuffled(list, rng)
}

/// Cliques of eight bones, each joined to the next by one link of the given tally.
fn cliques_in_order(n: usize, tally: usize, k: usize) -> List {
    let mut list = List::new(n, k);
    for a in 0..n {
        for b in a + 1..n.min(a / 8 * 8 + 8) {
            list.link(a, b, 1);
        }
        if a % 8 == 7 && a + 1 < n {
            list.link(a, a + 1, tally);
        }
    }
    list
}

fn cliques(n: usize, k: usize, rng: &mut Rng) -> List {
    shuffled(cliques_in_order(n, 1, k), rng)
}

/// Cliques of eight bones in a ring of tally 3, which holds at k = 5, and as many chords of tally 1 as there are cliques.
fn ring_of_cliques(n: usize, rng: &mut Rng) -> List {
    let mut list = cliques_in_order(n, 3, 5);
    list.link(n - 1, 0, 3);
    for _ in 0..n / 8 {
        let (a, b) = pair(n / 8, rng);
        list.link(8 * a + rng.below(8), 8 * b + rng.below(8), 1);
    }
    shuffled(list, rng)
}

/// Each bone linked to those that stand the given steps further round.
fn circulant(n: usize, steps: &[usize], k: usize) -> List {
    let mut list = List::new(n, k);
    for a in 0..n {
        for step in steps {
            list.link(a, (a + step) % n, 1);
        }
    }
    list
}

fn ring(n: usize, steps: &[usize], k: usize, rng: &mut Rng) -> List {
    shuffled(circulant(n, steps, k), rng)
}

/// Each bone linked to the n / 4 next on either side, n / 2 links a bone: firm at k = n / 2, single bones above.
fn near(n: usize, k: usize, rng: &mut Rng) -> List {
    ring(n, &(1..=n / 4).collect::<Vec<_>>(), k, rng)
}

fn all_linked(n: usize, less: usize, rng: &mut Rng) -> List {
    let mut list = List::new(n, n - less);
    for a in 0..n {
        for b in a + 1..n {
            list.link(a, b, 1);
        }
    }
    shuffled(list, rng)
}

fn heavy(n: usize, links: usize, rng: &mut Rng) -> List {
    let mut list = List::new(n, 65_535);
    for _ in 0..links {
        let (a, b) = pair(n, rng);
        list.link(a, b, 65_535);
    }
    list
}

/// Each bone but the first linked to the one above it; at k = 2 no two stay together.
fn tree(n: usize, above: fn(usize) -> usize, rng: &mut Rng) -> List {
    let mut list = List::new(n, 2);
    for a in 1..n {
        list.link(above(a), a, 1);
    }
    shuffled(list, rng)
}

/// Two rows of bones with a rung between each two that face: firm at k = 2, and at k = 3 it falls from the ends.
fn ladder(n: usize, k: usize, rng: &mut Rng) -> List {
    let mut list = List::new(n, k);
    for a in 0..n {
        if a % 2 == 0 {
            list.link(a, a + 1, 1);
        }
        if a + 2 < n {
            list.link(a, a + 2, 1);
        }
    }
    shuffled(list, rng)
}

/// From one link on, each bone linked to both ends of a random link that is there already: firm at k = 2.
fn two_tree(n: usize, most: usize, k: usize, rng: &mut Rng) -> List {
    let mut list = List::new(n, k);
    list.link(0, 1, rng.within(1, most));
    for a in 2..n {
        let at = 4 * rng.below(list.count());
        for end in [list.links[at], list.links[at + 1]] {
            list.link(end as usize, a, rng.within(1, most));
        }
    }
    shuffled(list, rng)
}

/// Each bone of the order linked to the next, and the last to the first.
fn add_ring(list: &mut List, order: &[usize], tally: usize) {
    for (i, a) in order.iter().enumerate() {
        list.link(*a, order[(i + 1) % order.len()], tally);
    }
}

/// Three rings through all bones, each in its own random order and with its own tally: no split weighs less than a bone.
fn regular(n: usize, tallies: [usize; 3], k: usize, rng: &mut Rng) -> List {
    let mut list = List::new(n, k);
    for tally in tallies {
        add_ring(&mut list, &rng.permutation(n), tally);
    }
    list
}

/// A ring of tally 500 that holds at k = 1,000 by itself, and a chord of tally 1 to 3 from each bone to one across.
fn ring_with_chords(n: usize, rng: &mut Rng) -> List {
    let mut list = List::new(n, 1_000);
    let order = rng.permutation(n);
    add_ring(&mut list, &order, 500);
    for a in 0..n {
        list.link(order[a], order[(a + rng.within(2, n - 2)) % n], rng.within(1, 3));
    }
    list
}

/// Pairs of tally 100 in a line, each tied to the next four: at k = 5 only a pair at an end is light, and they come off one by one.
fn peeling(n: usize, rng: &mut Rng) -> List {
    let mut list = List::new(n, 5);
    for a in (0..n).step_by(2) {
        list.link(a, a + 1, 100);
        for b in (a + 2..n.min(a + 10)).step_by(2) {
            list.link(a, b, 1);
        }
    }
    shuffled(list, rng)
}

/// A ring and a random matching: three links a bone.
fn add_cubic(list: &mut List, from: usize, to: usize, rng: &mut Rng) {
    let size = to - from;
    add_ring(list, &(from..to).collect::<Vec<_>>(), 1);
    let mates = rng.permutation(size);
    for two in mates.chunks_exact(2) {
        list.link(from + two[0], from + two[1], 1);
    }
}

/// So many times all bones paired at random: at 128 bones more pairs than a sparse pile has, and fewer than a dense one.
fn pairings(n: usize, rounds: usize, k: usize, rng: &mut Rng) -> List {
    let mut list = List::new(n, k);
    for _ in 0..rounds {
        for pair in rng.permutation(n).chunks_exact(2) {
            list.link(pair[0] as usize, pair[1] as usize, 1);
        }
    }
    list
}

fn cubic(n: usize, k: usize, rng: &mut Rng) -> List {
    let mut list = List::new(n, k);
    add_cubic(&mut list, 0, n, rng);
    shuffled(list, rng)
}

/// Two halves of three links a bone, joined by two links: no bone is light, yet the whole is.
fn halves(n: usize, rng: &mut Rng) -> List {
    let mut list = List::new(n, 3);
    add_cubic(&mut list, 0, n / 2, rng);
    add_cubic(&mut list, n / 2, n, rng);
    list.link(0, n / 2, 1);
    list.link(1, n / 2 + 1, 1);
    shuffled(list, rng)
}

fn torus_in_order(n: usize) -> List {
    let wide = 1 << (n.ilog2() / 2);
    let mut list = List::new(n, 4);
    for a in 0..n {
        list.link(a, a / wide * wide + (a + 1) % wide, 1);
        list.link(a, (a + wide) % n, 1);
    }
    list
}

fn torus(n: usize, rng: &mut Rng) -> List {
    shuffled(torus_in_order(n), rng)
}

fn cube(n: usize, rng: &mut Rng) -> List {
    let axes = n.ilog2() as usize;
    let mut list = List::new(n, axes);
    for a in 0..n {
        for axis in 0..axes {
            if a >> axis & 1 == 0 {
                list.link(a, a | 1 << axis, 1);
            }
        }
    }
    shuffled(list, rng)
}

/// Rings of eight bones, each joined to the next by one link: at k = 2 the rings hold and the string does not.
fn rings(n: usize, rng: &mut Rng) -> List {
    let mut list = List::new(n, 2);
    for a in 0..n {
        list.link(a, a / 8 * 8 + (a + 1) % 8, 1);
        if a % 8 == 7 && a + 1 < n {
            list.link(a, a + 1, 1);
        }
    }
    shuffled(list, rng)
}

/// A list that is firm but for one link taken away: one bone after another falls off.
fn fell(mut list: List, rng: &mut Rng) -> List {
    let at = 4 * rng.below(list.count());
    list.links.drain(at..at + 4);
    shuffled(list, rng)
}

fn domino(n: usize, steps: &[usize], rng: &mut Rng) -> List {
    fell(circulant(n, steps, 2 * steps.len()), rng)
}

fn domino_torus(n: usize, rng: &mut Rng) -> List {
    fell(torus_in_order(n), rng)
}

/// A ring whose tallies differ from link to link, with k just above the least sum of two of them: few merges a pass.
fn weighted_ring(n: usize, rng: &mut Rng) -> List {
    let mut list = List::new(n, 2_000);
    for a in 0..n {
        list.link(a, (a + 1) % n, rng.within(998, 1_100));
    }
    shuffled(list, rng)
}
