//! The program `bones` on long texts: the time of a whole run, beside that of a program that does nothing.

use crate::families::FAMILIES;
use crate::list::List;
use crate::rng::Rng;
use std::io::Write;
use std::path::Path;
use std::process::{Command, Stdio};
use std::time::{Duration, Instant};

const RUNS: usize = 60;

fn run_once(program: &Path, text: &[u8]) -> std::io::Result<Duration> {
    let start = Instant::now();
    let mut child = Command::new(program).stdin(Stdio::piped()).stdout(Stdio::piped()).spawn()?;
    if let Some(mut input) = child.stdin.take() {
        // A program that does not read its input may be gone by now.
        let _ = input.write_all(text);
    }
    child.wait_with_output()?;
    Ok(start.elapsed())
}

fn quickest(program: &Path, text: &[u8]) -> std::io::Result<Duration> {
    (0..RUNS).map(|_| run_once(program, text)).try_fold(Duration::MAX, |best, time| time.map(|time| best.min(time)))
}

/// Lists of 4,096 links, each with its text of some 53,000 bytes.
fn long_lists() -> Vec<List> {
    FAMILIES.iter().map(|family| (family.make)(128, &mut Rng::new(1))).filter(|list| list.count() == 4096).collect()
}

pub fn print(program: &Path) -> std::io::Result<()> {
    let nothing = quickest(Path::new("/bin/true"), b"")?;
    println!("\nthe program on texts of 4,096 links, quickest of {RUNS} runs; a program that does nothing: {:.2} ms", millis(nothing));
    for list in long_lists() {
        let text = list.text();
        let whole = quickest(program, text.as_bytes())?;
        println!("k {:>5}, {} bytes: {:.2} ms, its own: {:.2} ms", list.k, text.len(), millis(whole), millis(whole.saturating_sub(nothing)));
    }
    Ok(())
}

fn millis(time: Duration) -> f64 {
    time.as_secs_f64() * 1e3
}
