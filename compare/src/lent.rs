//! Memory as it is lent to the library: each run with a margin on both sides, so that every byte that may not change is watched.

use crate::call::Call;
use crate::second::calls::Job;

const MARGIN: usize = 64;
const PATTERN: u8 = 0xa7;

/// Every run stands where a record may stand: served/library.c reckons with it.
const ALIGNED: usize = 8;

/// Bytes of a link in either form.
const LINK: usize = 4;

/// A run, and the memory around it.
pub struct Lent {
    pub memory: Vec<u8>,
    /// Bytes of the run, and of each thing that the call counts in it.
    length: usize,
    unit: usize,
    pub is_room: bool,
}

impl Lent {
    fn given(content: &[u8], unit: usize) -> Lent {
        let mut lent = Lent { is_room: false, ..Lent::room(content.len() / unit, unit) };
        lent.memory[MARGIN..MARGIN + content.len()].copy_from_slice(content);
        lent
    }

    fn room(count: usize, unit: usize) -> Lent {
        let length = count * unit;
        let all = (MARGIN + length + MARGIN).next_multiple_of(ALIGNED);
        Lent { memory: vec![PATTERN; all], length, unit, is_room: true }
    }

    /// The same run with the memory that a call left.
    pub fn left(self, memory: &[u8]) -> Lent {
        Lent { memory: memory.to_vec(), ..self }
    }

    /// The length that the call is told, and that in bytes.
    pub fn lengths(&self) -> [u64; 2] {
        [(self.length / self.unit) as u64, self.length as u64]
    }

    pub fn run(&self) -> &[u8] {
        &self.memory[MARGIN..MARGIN + self.length]
    }

    /// Whether everything but the first `written` bytes of the run holds the pattern still.
    pub fn kept_after(&self, written: usize) -> bool {
        let (before, rest) = self.memory.split_at(MARGIN);
        written <= self.length && before.iter().chain(&rest[written..]).all(|byte| *byte == PATTERN)
    }
}

/// Links as bytes made records, or records made bytes: the tally of a record has its low byte first on the archive's processor.
pub fn turned(links: &[u8]) -> Vec<u8> {
    links.chunks_exact(LINK).flat_map(|link| [link[0], link[1], link[3], link[2]]).collect()
}

/// Links in the form of the call.
pub fn in_form(call: Call, links: &[u8]) -> Vec<u8> {
    if call.has_records() {
        turned(links)
    } else {
        links.to_vec()
    }
}

/// The runs of a call, in the order of its parameters.
pub fn runs(call: Call, job: &Job) -> Vec<Lent> {
    let unit = if call.has_records() { LINK } else { 1 };
    let links = || Lent::given(&in_form(call, &job.links), unit);
    let record = || Lent::given(&job.record, 1);
    let room = |length: usize| Lent::room(length, 1);
    let link_room = || Lent::room(job.link_room, unit);
    match call {
        Call::Grouping | Call::GroupingRecords => vec![links(), record(), room(job.labels), room(job.space)],
        Call::Checking | Call::CheckingRecords => vec![links(), record(), room(job.labels)],
        Call::Thinning | Call::ThinningRecords => vec![links(), link_room()],
        Call::Read => vec![Lent::given(&job.text, 1), link_room(), room(job.space)],
        Call::WriteInput | Call::WriteResult => vec![links(), record(), room(job.text_room)],
        Call::Bones | Call::Thin => Vec::new(),
    }
}
