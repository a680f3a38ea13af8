//! A process that answers questions over its standard input and output, as served/serve.h says. A question on which it ends (a crash,
//! or a call that never comes back) is found by asking each of its batch again, alone. Where it then ends on none of them, an earlier
//! question is to blame for how it met a later one: the batch still counts as failed.

use std::io::{Read, Write};
use std::path::PathBuf;
use std::process::{Child, Command, Stdio};

/// As many questions as are written before the answers are read, and their bytes: both far within what the process keeps.
const MOST_TOGETHER: usize = 64;
const MOST_BYTES: usize = 1 << 20;
const ANSWERS: u64 = u64::MAX;

pub struct Server {
    path: PathBuf,
    child: Option<Child>,
}

impl Server {
    pub fn new(path: PathBuf) -> Server {
        Server { path, child: None }
    }

    /// The answer to each question, or how the process ended on it.
    pub fn ask(&mut self, questions: &[Vec<u8>]) -> Vec<Result<Vec<u8>, String>> {
        let mut answers = Vec::new();
        let mut rest = questions;
        while !rest.is_empty() {
            let (some, later) = rest.split_at(batch(rest));
            match self.ask_together(some) {
                Ok(all) => answers.extend(all.into_iter().map(Ok)),
                Err(ended) => answers.extend(self.ask_apart(some, &ended)),
            }
            rest = later;
        }
        answers
    }

    /// Each question of a batch on which the process ended, asked alone. At least one of the answers says how it ended.
    fn ask_apart(&mut self, questions: &[Vec<u8>], ended: &str) -> Vec<Result<Vec<u8>, String>> {
        let mut answers: Vec<_> = questions.iter().map(|question| self.ask_one(question)).collect();
        if answers.iter().all(Result::is_ok) {
            let last = answers.len() - 1;
            answers[last] = Err(format!("{ended} in a batch of {} of which it answers each alone", questions.len()));
        }
        answers
    }

    fn ask_one(&mut self, question: &Vec<u8>) -> Result<Vec<u8>, String> {
        self.ask_together(std::slice::from_ref(question)).map(|mut answers| answers.remove(0))
    }

    fn ask_together(&mut self, questions: &[Vec<u8>]) -> Result<Vec<Vec<u8>>, String> {
        let mut child = self.child.take().map_or_else(|| self.start(), Ok)?;
        match exchange(&mut child, questions) {
            Ok(answers) => {
                self.child = Some(child);
                Ok(answers)
            }
            Err(error) => Err(how_it_ended(child, error)),
        }
    }

    fn start(&self) -> Result<Child, String> {
        let failed = |error: std::io::Error| format!("{}: {error}", self.path.display());
        Command::new(&self.path).stdin(Stdio::piped()).stdout(Stdio::piped()).spawn().map_err(failed)
    }
}

impl Drop for Server {
    fn drop(&mut self) {
        if let Some(mut child) = self.child.take() {
            drop(child.stdin.take());
            let _ = child.wait();
        }
    }
}

fn how_it_ended(mut child: Child, error: std::io::Error) -> String {
    drop(child.stdin.take());
    match child.wait() {
        Ok(status) => format!("it ended with {status}"),
        Err(_) => error.to_string(),
    }
}

/// How many of the questions go together: one at least.
fn batch(questions: &[Vec<u8>]) -> usize {
    let mut bytes = 0;
    let within = |question: &&Vec<u8>| {
        bytes += question.len();
        bytes <= MOST_BYTES
    };
    questions.iter().take(MOST_TOGETHER).take_while(within).count().max(1)
}

fn exchange(child: &mut Child, questions: &[Vec<u8>]) -> std::io::Result<Vec<Vec<u8>>> {
    let gone = || std::io::Error::other("no pipe");
    let mut all = Vec::new();
    for question in questions {
        all.extend((question.len() as u64).to_le_bytes());
        all.extend(question);
    }
    all.extend(ANSWERS.to_le_bytes());
    child.stdin.as_mut().ok_or_else(gone)?.write_all(&all)?;
    let from = child.stdout.as_mut().ok_or_else(gone)?;
    questions.iter().map(|_| answer(from)).collect()
}

fn answer(from: &mut impl Read) -> std::io::Result<Vec<u8>> {
    let mut length = [0; 8];
    from.read_exact(&mut length)?;
    let mut bytes = vec![0; u64::from_le_bytes(length) as usize];
    from.read_exact(&mut bytes)?;
    Ok(bytes)
}
