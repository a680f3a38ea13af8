//! The calls of the library under test, made by served/library.c, with a watch on every byte that is lent.

use crate::case::Case;
use crate::lent::{runs, Lent};
use crate::server::Server;
use std::path::PathBuf;

/// As many runs as a call has at most, and numbers as an answer has at most.
const RUNS: usize = 4;
const NUMBERS: usize = 6;

/// What a call told, as include/bones.h declares it: its answer's numbers in their order, and noughts after them.
pub type Told = [u32; NUMBERS];

/// The answer with these numbers.
pub fn told(numbers: &[usize]) -> Told {
    let mut told = [0; NUMBERS];
    for (to, number) in told.iter_mut().zip(numbers) {
        *to = *number as u32;
    }
    told
}

pub struct Library(Server);

impl Library {
    pub fn new(path: PathBuf) -> Library {
        Library(Server::new(path))
    }

    pub fn call(&mut self, cases: &[Case]) -> Vec<Result<Done, String>> {
        let questions: Vec<Vec<u8>> = cases.iter().map(question).collect();
        let answers = self.0.ask(&questions);
        answers.into_iter().zip(cases).map(|(answer, case)| Ok(Done::new(&answer?, case))).collect()
    }
}

/// As served/library.c takes it: which call, n, k and how many runs; the lengths of each; the memory of each.
fn question(case: &Case) -> Vec<u8> {
    let runs = runs(case.call, &case.job);
    let mut words = vec![case.call as u64, case.job.n, case.job.k, runs.len() as u64];
    words.extend(runs.iter().flat_map(Lent::lengths));
    words.resize(4 + 2 * RUNS, 0);
    let mut bytes: Vec<u8> = words.into_iter().flat_map(u64::to_le_bytes).collect();
    for run in &runs {
        bytes.extend_from_slice(&run.memory);
    }
    bytes
}

/// What a call answered and what it left of the memory that was lent.
pub struct Done {
    pub told: Told,
    rooms: Vec<Lent>,
    inputs_kept: bool,
}

impl Done {
    fn new(bytes: &[u8], case: &Case) -> Done {
        let (numbers, mut rest) = bytes.split_at(4 * NUMBERS);
        let mut told = [0; NUMBERS];
        for (to, four) in told.iter_mut().zip(numbers.chunks_exact(4)) {
            *to = u32::from_le_bytes([four[0], four[1], four[2], four[3]]);
        }
        let mut done = Done { told, rooms: Vec::new(), inputs_kept: true };
        for before in runs(case.call, &case.job) {
            let (memory, later) = rest.split_at(before.memory.len());
            rest = later;
            done.look_at(before, memory);
        }
        done
    }

    fn look_at(&mut self, before: Lent, memory: &[u8]) {
        if before.is_room {
            self.rooms.push(before.left(memory));
        } else {
            self.inputs_kept &= before.memory == memory;
        }
    }

    /// The first bytes of a room; rooms are counted in the order of the call's parameters.
    pub fn room(&self, room: usize, length: usize) -> &[u8] {
        &self.rooms[room].run()[..length]
    }

    /// Whether no byte has changed but the first of each room, as many as are given here; a room that is not named is to be kept whole.
    pub fn wrote_only(&self, written: &[usize]) -> bool {
        let written = written.iter().copied().chain(std::iter::repeat(0));
        self.inputs_kept && self.rooms.iter().zip(written).all(|(room, written)| room.kept_after(written))
    }

    pub fn wrote_nothing(&self) -> bool {
        self.wrote_only(&[])
    }
}
