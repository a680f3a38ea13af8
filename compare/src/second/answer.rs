//! The second program as a program: an input text on standard input, its own answer on standard output.

use super::calls::{judge_grouping, thinning, Job};
use super::record::{cuts_of, judge_run};
use super::text::{asked, refusal_text, result_text, write_input, MOST_BYTES};
use super::{finish, Refusal};
use std::io::{Read, Write};

/// `bones`: the result text, by the second program's own cuts. `thin`: the input text of the links that thinning keeps, without cuts.
pub fn answer(what: &str) -> Result<(), String> {
    let mut text = Vec::new();
    std::io::stdin().read_to_end(&mut text).map_err(|error| error.to_string())?;
    let act = match what {
        "bones" => bones,
        "thin" => thin,
        _ => return Err(format!("{what}: bones or thin")),
    };
    let printed = asked(&text).and_then(|job| act(&job)).unwrap_or_else(refusal_text);
    std::io::stdout().write_all(printed.as_bytes()).map_err(|error| error.to_string())
}

fn bones(job: &Job) -> Result<String, Refusal> {
    let (pit, _) = judge_grouping(job)?;
    let cuts = finish(&pit, cuts_of(&job.record));
    let heap = judge_run(&pit, &cuts)?;
    Ok(result_text(&pit, &cuts, &heap))
}

pub fn thin(job: &Job) -> Result<String, Refusal> {
    let links = thinning(job.n, job.k, &job.links, 4096)?;
    write_input(job.n, job.k, &links, &[], MOST_BYTES)
}
