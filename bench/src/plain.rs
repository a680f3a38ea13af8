//! The yardstick: grouping as a careful programmer would write it in an afternoon. A pair table, and for every pile
//! maximum-adjacency passes over a table of blocks that is contracted after each pass: a block that attaches with k or more merges
//! with the one taken before it; the last block, if it attaches with less, is the cut. No other short cut.

const MOST: usize = 128;
const ENTRY: usize = 21;

type Table = [[u32; MOST]; MOST];

/// A light split: the side (bone b is bit b) and its weight.
struct Split {
    side: u128,
    weight: u32,
}

/// Labels for n bones and the record of the cuts that lead to them; gives the number of groups. The list is taken as good, and the
/// room for blocks is lent, so that no call pays for clearing it.
pub fn grouping(n: usize, k: u32, links: &[u8], labels: &mut [u8], record: &mut [u8], room: &mut Blocks) -> usize {
    let mut table = [[0; MOST]; MOST];
    fill(&mut table, links);
    labels[..n].fill(0);
    let mut groups = 1;
    for pile in 0..n {
        while labels[pile] as usize == pile {
            let Some(split) = light_split(&table, members(&labels[..n], pile), k, room) else { break };
            write_entry(&mut record[(groups - 1) * ENTRY..groups * ENTRY], pile, &split);
            let name = split.side.trailing_zeros() as u8;
            for_each_bone(split.side, |bone| labels[bone] = name);
            groups += 1;
        }
    }
    groups
}

/// Adds the links to a table of noughts.
pub fn fill(table: &mut Table, links: &[u8]) {
    for link in links.chunks_exact(4) {
        let (a, b) = (link[0] as usize, link[1] as usize);
        let tally = (link[2] as u32) << 8 | link[3] as u32;
        table[a][b] += tally;
        table[b][a] += tally;
    }
}

fn members(labels: &[u8], pile: usize) -> u128 {
    labels.iter().enumerate().filter(|(_, label)| **label as usize == pile).fold(0, |set, (bone, _)| set | 1 << bone)
}

fn for_each_bone(set: u128, mut act: impl FnMut(usize)) {
    let mut left = set;
    while left != 0 {
        act(left.trailing_zeros() as usize);
        left &= left - 1;
    }
}

fn write_entry(entry: &mut [u8], pile: usize, split: &Split) {
    entry[0] = pile as u8;
    entry[1..5].copy_from_slice(&split.weight.to_be_bytes());
    entry[5..ENTRY].copy_from_slice(&split.side.to_le_bytes());
}

/// The blocks of a pile: the bones of each, and the tallies between them.
pub struct Blocks {
    count: usize,
    bones: [u128; MOST],
    tally: Table,
}

impl Blocks {
    pub fn new() -> Box<Blocks> {
        Box::new(Blocks { count: 0, bones: [0; MOST], tally: [[0; MOST]; MOST] })
    }
}

/// A split of the pile that weighs less than k, or none if the pile is firm. Its side leaves out the pile's least bone, which the
/// first block always holds.
fn light_split(table: &Table, pile: u128, k: u32, blocks: &mut Blocks) -> Option<Split> {
    single_bones(table, pile, blocks);
    while blocks.count > 1 {
        let mut order = [(0, 0); MOST];
        scan(blocks, &mut order);
        let (last, attach) = order[blocks.count - 1];
        if attach < k {
            return Some(Split { side: blocks.bones[last], weight: attach });
        }
        merge(blocks, &order, k);
    }
    None
}

fn single_bones(table: &Table, pile: u128, blocks: &mut Blocks) {
    let mut bones = [0; MOST];
    blocks.count = 0;
    for_each_bone(pile, |bone| {
        bones[blocks.count] = bone;
        blocks.bones[blocks.count] = 1 << bone;
        blocks.count += 1;
    });
    let bones = &bones[..blocks.count];
    for (row, &a) in blocks.tally.iter_mut().zip(bones) {
        for (tally, &b) in row.iter_mut().zip(bones) {
            *tally = table[a][b];
        }
    }
}

/// The order in which blocks are taken, from the first on, each with the tally by which it attaches to those before it.
fn scan(blocks: &Blocks, order: &mut [(usize, u32); MOST]) {
    let count = blocks.count;
    let mut attach = [0; MOST];
    let mut rest: [usize; MOST] = std::array::from_fn(|i| i);
    let mut left = count;
    let mut at = 0;
    for place in 0..count {
        let taken = rest[at];
        order[place] = (taken, attach[taken]);
        left -= 1;
        rest[at] = rest[left];
        let row = &blocks.tally[taken];
        at = 0;
        let mut best = 0;
        for i in 0..left {
            let block = rest[i];
            attach[block] += row[block];
            if attach[block] > best {
                best = attach[block];
                at = i;
            }
        }
    }
}

/// Merges every block that attached with k or more with the one taken before it.
fn merge(blocks: &mut Blocks, order: &[(usize, u32); MOST], k: u32) {
    let mut into = [0; MOST];
    let mut current = 0;
    for &(block, attach) in &order[..blocks.count] {
        if attach < k {
            current = block;
        }
        into[block] = current;
    }
    for block in 0..blocks.count {
        if into[block] != block {
            absorb(blocks, into[block], block);
        }
    }
    compact(blocks, &into);
}

fn absorb(blocks: &mut Blocks, keep: usize, gone: usize) {
    blocks.bones[keep] |= blocks.bones[gone];
    for other in 0..blocks.count {
        let tally = blocks.tally[gone][other];
        blocks.tally[keep][other] += tally;
        blocks.tally[other][keep] += tally;
    }
}

/// Drops the blocks that were absorbed; the first stays first.
fn compact(blocks: &mut Blocks, into: &[usize; MOST]) {
    let mut kept = [0; MOST];
    let mut count = 0;
    for block in 0..blocks.count {
        if into[block] == block {
            kept[count] = block;
            count += 1;
        }
    }
    for (i, &block) in kept[..count].iter().enumerate() {
        blocks.bones[i] = blocks.bones[block];
        for (j, &other) in kept[..count].iter().enumerate() {
            blocks.tally[i][j] = blocks.tally[block][other];
        }
        blocks.tally[i][i] = 0;
    }
    blocks.count = count;
}
