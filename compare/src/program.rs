//! A program under test: a text on its standard input, a text from its standard output. A program of the toolchain is run on many
//! texts in one process, by served/program.c; any other is started anew for each.

use crate::server::Server;
use std::io::Write;
use std::path::{Path, PathBuf};
use std::process::{Command, Stdio};

/// No text takes near this many seconds.
const PATIENCE: &str = "10";

pub enum Program {
    Served(Server),
    Started(PathBuf),
}

impl Program {
    /// What the program printed for each text, or how it ended where it failed.
    pub fn printed(&mut self, texts: &[Vec<u8>]) -> Vec<Result<Vec<u8>, String>> {
        match self {
            Program::Served(server) => server.ask(texts).into_iter().map(|answer| without_status(answer?)).collect(),
            Program::Started(path) => texts.iter().map(|text| started(path, text)).collect(),
        }
    }
}

fn without_status(mut answer: Vec<u8>) -> Result<Vec<u8>, String> {
    let printed = answer.split_off(4);
    if answer == [0; 4] {
        Ok(printed)
    } else {
        Err(format!("the program ended with status {answer:?}"))
    }
}

fn started(program: &Path, text: &[u8]) -> Result<Vec<u8>, String> {
    let failed = |error: std::io::Error| format!("{}: {error}", program.display());
    let mut command = Command::new("timeout");
    command.arg(PATIENCE).arg(program).stdin(Stdio::piped()).stdout(Stdio::piped());
    let mut child = command.spawn().map_err(failed)?;
    let mut input = child.stdin.take().ok_or("no standard input")?;
    // A program that has read enough may end before it has read all; what it prints is judged all the same. It reads all
    // before it prints, and prints less than a pipe holds, so neither side waits for the other.
    let _ = input.write_all(text);
    drop(input);
    let output = child.wait_with_output().map_err(failed)?;
    if output.status.success() {
        Ok(output.stdout)
    } else {
        Err(format!("the program ended with {}", output.status))
    }
}
