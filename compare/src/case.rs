//! One thing to compare, as a text that can be kept and run again.

use crate::call::Call;
use crate::second::calls::Job;

/// Characters of a text that a failure prints: the hexadecimal of 4,096 links and 127 cuts, and what stands around it.
const MOST_PRINTED: usize = 40_000;

#[derive(Clone)]
pub struct Case {
    pub call: Call,
    pub job: Job,
}

fn hex(bytes: &[u8]) -> String {
    bytes.iter().map(|byte| format!("{byte:02x}")).collect()
}

fn unhex(word: &str) -> Option<Vec<u8>> {
    (0..word.len()).step_by(2).map(|at| u8::from_str_radix(word.get(at..at + 2)?, 16).ok()).collect()
}

impl Case {
    /// Records are whole links: bytes that are left over are no part of a run of them.
    pub fn new(call: Call, mut job: Job) -> Case {
        if call.has_records() {
            job.links.truncate(job.links.len() / 4 * 4);
        }
        Case { call, job }
    }

    /// A program on a text.
    pub fn program(program: Call, text: Vec<u8>) -> Case {
        Case::new(program, Job { text, ..Job::default() })
    }

    /// The same call over records.
    pub fn over_records(&self) -> Case {
        Case::new(self.call.over_records(), self.job.clone())
    }

    fn text(&self) -> String {
        let job = &self.job;
        let (links, record, text) = (hex(&job.links), hex(&job.record), hex(&job.text));
        format!("call {}\nn {}\nk {}\nlinks {links}\nrecord {record}\ntext {text}\n", self.call.name(), job.n, job.k)
            + &format!("labels {}\nspace {}\nlink_room {}\ntext_room {}\n", job.labels, job.space, job.link_room, job.text_room)
    }

    /// The text, and what to do with it. One that is longer than any list makes it is put into a file.
    pub fn reproduce(&self, count: u64) -> String {
        let text = self.text();
        let file = format!("target/compare/failed-{count}.txt");
        if text.len() > MOST_PRINTED && std::fs::write(&file, &text).is_ok() {
            return format!("--- compare/run --replay {file}");
        }
        format!("--- compare/run --replay FILE, with this in FILE:\n{text}---")
    }

    pub fn from_text(text: &str) -> Option<Case> {
        let value = |key: &str| text.lines().find_map(|line| line.strip_prefix(key)?.strip_prefix(' '));
        let number = |key: &str| value(key)?.parse::<u64>().ok();
        let bytes = |key: &str| unhex(value(key)?);
        let job = Job {
            n: number("n")?,
            k: number("k")?,
            links: bytes("links")?,
            record: bytes("record")?,
            text: bytes("text")?,
            labels: number("labels")? as usize,
            space: number("space")? as usize,
            link_room: number("link_room")? as usize,
            text_room: number("text_room")? as usize,
        };
        Some(Case::new(Call::from_name(value("call")?)?, job))
    }
}
