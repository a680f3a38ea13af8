//! Times the grouping of the library beside a plain implementation, on lists of many families, over link records beside bytes, and the longest text read
//! and written.
//! See bench/README.md.

mod climb;
mod families;
mod library;
mod list;
mod measure;
mod plain;
mod plain_texts;
mod program;
mod records;
mod report;
mod rng;
mod stack;
mod texts;

use climb::Aim;
use families::FAMILIES;
use list::List;
use measure::{Care, Room};
use report::{Row, SIZES};
use rng::Rng;
use std::path::{Path, PathBuf};
use std::time::Duration;

struct Options {
    seed: u64,
    lists: u64,
    climb: u64,
    program: Option<PathBuf>,
    found: PathBuf,
    out: PathBuf,
}

fn options() -> Result<Options, String> {
    let mut options =
        Options { seed: 1, lists: 3, climb: 0, program: None, found: "bench/lists".into(), out: "target/bench".into() };
    let mut words = std::env::args().skip(1);
    while let Some(word) = words.next() {
        let mut value = || words.next().ok_or(format!("{word} wants a value"));
        match word.as_str() {
            "--seed" => options.seed = number(&value()?)?,
            "--lists" => options.lists = number(&value()?)?,
            "--climb" => options.climb = number(&value()?)?,
            "--program" => options.program = Some(value()?.into()),
            "--found" => options.found = value()?.into(),
            "--out" => options.out = value()?.into(),
            _ => return Err(format!("no option {word}")),
        }
    }
    Ok(options)
}

fn number(word: &str) -> Result<u64, String> {
    word.parse().map_err(|_| format!("{word} is no number"))
}

/// The lists of every family and size, then those that earlier searches found.
fn lists(options: &Options) -> Vec<(String, usize, List)> {
    let mut lists = Vec::new();
    for family in FAMILIES {
        for size in SIZES {
            for seed in options.seed..options.seed + options.lists {
                let mut list = (family.make)(size, &mut Rng::new(seed));
                list.name = format!("{}, n {}, seed {seed}", family.name, list.n);
                lists.push((family.name.to_string(), size, list));
            }
        }
    }
    lists.extend(found(&options.found).into_iter().map(|list| (format!("found {}", list.name), 128, list)));
    lists
}

fn found(folder: &Path) -> Vec<List> {
    let Ok(entries) = std::fs::read_dir(folder) else { return Vec::new() };
    let mut paths: Vec<PathBuf> = entries.flatten().map(|entry| entry.path()).collect();
    paths.retain(|path| path.extension().is_some_and(|end| end == "txt"));
    paths.sort();
    paths.iter().filter_map(|path| List::from_text(path.file_stem()?.to_str()?, &std::fs::read_to_string(path).ok()?)).collect()
}

fn timed(options: &Options, room: &mut Room) -> Result<Vec<Row>, String> {
    let care = Care { batch: Duration::from_micros(400), batches: 9 };
    lists(options)
        .into_iter()
        .map(|(family, size, list)| room.times(&list, care).map(|times| Row { family, size, list, times }))
        .collect()
}

/// Climbs from the worst rows for the given seconds, half of them for time and half for the ratio, and keeps what it finds.
fn climbs(rows: &mut [Row], options: &Options, room: &mut Room) -> Result<(), String> {
    let starts = 4;
    let each = Duration::from_secs(options.climb) / (2 * starts);
    let mut rng = Rng::new(options.seed);
    for (aim, name, unit) in [(Aim::Time, "time", "ns"), (Aim::Ratio, "ratio", "times plain")] {
        rows.sort_by(|a, b| standing(aim, b).total_cmp(&standing(aim, a)));
        for (i, row) in worst_of_families(rows, starts as usize).into_iter().enumerate() {
            let (list, height) = climb::climb(&row.list, aim, each, &mut rng, room);
            room.agree(&list)?;
            let path = options.out.join(format!("worst-{name}-{i}.txt"));
            save(&list, &path)?;
            println!("climb, {name}: from {} to {height:.2} {unit}: {}", row.list.name, path.display());
        }
    }
    Ok(())
}

/// The first rows of more than 64 bones, one a family.
fn worst_of_families(rows: &[Row], most: usize) -> Vec<&Row> {
    let mut chosen: Vec<&Row> = Vec::new();
    for row in rows.iter().filter(|row| row.list.n > 64) {
        if chosen.len() < most && chosen.iter().all(|other| other.family != row.family) {
            chosen.push(row);
        }
    }
    chosen
}

fn standing(aim: Aim, row: &Row) -> f64 {
    match aim {
        Aim::Time => row.times.library,
        Aim::Ratio => row.times.ratio(),
    }
}

fn save(list: &List, path: &Path) -> Result<(), String> {
    std::fs::write(path, list.text()).map_err(|error| format!("{}: {error}", path.display()))
}

/// The deepest stack over all lists of the largest size.
fn print_stack(rows: &[Row]) {
    let deepest = rows.iter().filter(|row| row.size == 128).map(|row| (stack::used(row.list.clone()), &row.list.name)).max();
    if let Some((bytes, name)) = deepest {
        println!("deepest stack of a call: {bytes} bytes, {} beyond the table: {name}", bytes.saturating_sub(65_536));
    }
}

fn run() -> Result<(), String> {
    let options = options()?;
    let mut room = Room::new();
    let mut rows = timed(&options, &mut room)?;
    report::print_times(&rows);
    report::print_growth(&rows);
    report::print_summary(&rows);
    print_stack(&rows);
    records::print(&rows)?;
    texts::print(options.seed)?;
    if let Some(program) = &options.program {
        program::print(program).map_err(|error| format!("{}: {error}", program.display()))?;
    }
    if options.climb > 0 {
        climbs(&mut rows, &options, &mut room)?;
    }
    Ok(())
}

fn main() {
    if let Err(error) = run() {
        eprintln!("bench: {error}");
        std::process::exit(1);
    }
}
