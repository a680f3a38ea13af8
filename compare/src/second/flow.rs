//! Firm sets and groups by exact flows: a set has a split below k that parts two bones exactly if less than k can flow between them.

use super::pit::{bones_of, has, least, only, Bones, Pit};

/// What may still flow between the bones of a set, by their places in it.
struct Room {
    bones: Vec<usize>,
    left: Vec<Vec<u64>>,
}

impl Room {
    fn new(pit: &Pit, set: Bones) -> Room {
        let bones: Vec<usize> = bones_of(set).collect();
        let mut place = [usize::MAX; 256];
        for (i, bone) in bones.iter().enumerate() {
            place[*bone] = i;
        }
        let mut left = vec![vec![0; bones.len()]; bones.len()];
        for link in pit.links.iter().filter(|link| has(set, link.a) && has(set, link.b)) {
            left[place[link.a]][place[link.b]] += link.tally;
            left[place[link.b]][place[link.a]] += link.tally;
        }
        Room { bones, left }
    }

    /// For every place the one before it on a shortest way from the sources; a source stands before itself.
    fn reached(&self, sources: Bones) -> Vec<Option<usize>> {
        let mut before = vec![None; self.bones.len()];
        let mut queue: Vec<usize> = (0..self.bones.len()).filter(|i| has(sources, self.bones[*i])).collect();
        for &source in &queue {
            before[source] = Some(source);
        }
        let mut next = 0;
        while next < queue.len() {
            let at = queue[next];
            next += 1;
            for to in 0..self.bones.len() {
                if before[to].is_none() && self.left[at][to] > 0 {
                    before[to] = Some(at);
                    queue.push(to);
                }
            }
        }
        before
    }

    /// Sends what fits along a way that was found, and gives how much that was.
    fn send(&mut self, before: &[Option<usize>], sink: usize) -> u64 {
        let steps = way(before, sink);
        let amount = steps.iter().map(|&(from, to)| self.left[from][to]).min().unwrap_or(0);
        for (from, to) in steps {
            self.left[from][to] -= amount;
            self.left[to][from] += amount;
        }
        amount
    }

    fn set(&self, places: &[Option<usize>]) -> Bones {
        self.bones.iter().zip(places).filter(|(_, before)| before.is_some()).fold(0, |set, (bone, _)| set | only(*bone))
    }
}

fn way(before: &[Option<usize>], sink: usize) -> Vec<(usize, usize)> {
    let mut steps = Vec::new();
    let mut at = sink;
    while let Some(from) = before[at].filter(|from| *from != at) {
        steps.push((from, at));
        at = from;
    }
    steps
}

impl Pit {
    /// A split of the set below k with all sources on one side, which is given, and the sink on the other; none if there is none.
    pub fn parting(&self, set: Bones, sources: Bones, sink: usize) -> Option<Bones> {
        let mut room = Room::new(self, set);
        let sink = room.bones.iter().position(|bone| *bone == sink)?;
        let mut flow = 0;
        while flow < self.k {
            let before = room.reached(sources);
            if before[sink].is_none() {
                return Some(room.set(&before));
            }
            flow += room.send(&before, sink);
        }
        None
    }

    /// A side of some split of the set below k, or none if the set is firm. Bones that no such split parts from the least bone are
    /// sources with it from then on.
    pub fn light_side(&self, set: Bones) -> Option<Bones> {
        let mut sources = only(least(set));
        for bone in bones_of(set).skip(1) {
            match self.parting(set, sources, bone) {
                Some(side) => return Some(side),
                None => sources |= only(bone),
            }
        }
        None
    }

    pub fn is_firm(&self, set: Bones) -> bool {
        self.light_side(set).is_none()
    }

    /// The groups: sets are parted along light splits until every one is firm.
    pub fn groups(&self) -> Vec<Bones> {
        let mut groups = Vec::new();
        let mut sets = vec![self.all()];
        while let Some(set) = sets.pop() {
            match self.light_side(set) {
                Some(side) => sets.extend([side, set & !side]),
                None => groups.push(set),
            }
        }
        groups
    }

    /// Rule 5: the least bone of each bone's group.
    pub fn labels(&self) -> Vec<u8> {
        names(self.n, &self.groups())
    }
}

/// For each bone the least bone of the set that holds it.
pub fn names(n: usize, sets: &[Bones]) -> Vec<u8> {
    (0..n).map(|bone| sets.iter().find(|set| has(**set, bone)).map_or(u8::MAX, |set| least(*set) as u8)).collect()
}
