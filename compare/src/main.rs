//! The comparison: the product's calls and program held to an independent second program. See compare/README.md.

mod call;
mod case;
mod judge;
mod known;
mod lent;
mod library;
mod made;
mod plan;
mod product;
mod program;
mod second;
mod self_test;
mod server;
mod table;

use call::{Call, CALLS, PROGRAMS};
use case::Case;
use judge::Judge;
use library::Library;
use made::rng::Rng;
use made::{cutter, lists};
use product::{Outcome, Product};
use program::Program;
use second::calls::{judge_links, Job};
use server::Server;
use std::path::PathBuf;
use std::time::{Duration, Instant};

struct Options {
    seed: u64,
    lists: usize,
    thorough: usize,
    texts: usize,
    soak: u64,
    library: Option<PathBuf>,
    bones: Option<Program>,
    thin: Option<Program>,
    replay: Option<PathBuf>,
    answer: Option<String>,
}

fn options() -> Result<Options, String> {
    let mut options = Options {
        seed: 1,
        lists: 20_000,
        thorough: 2,
        texts: 12,
        soak: 0,
        library: None,
        bones: None,
        thin: None,
        replay: None,
        answer: None,
    };
    let mut words = std::env::args().skip(1);
    while let Some(word) = words.next() {
        let mut value = || words.next().ok_or(format!("{word} wants a value"));
        let number = |value: String| value.parse::<u64>().map_err(|_| format!("{value} is no number"));
        match word.as_str() {
            "--seed" => options.seed = number(value()?)?,
            "--lists" => options.lists = number(value()?)? as usize,
            "--thorough" => options.thorough = number(value()?)?.max(1) as usize,
            "--texts" => options.texts = number(value()?)? as usize,
            "--soak" => options.soak = number(value()?)?,
            "--library" => options.library = Some(value()?.into()),
            "--bones" => options.bones = Some(Program::Served(Server::new(value()?.into()))),
            "--bones-started" => options.bones = Some(Program::Started(value()?.into())),
            "--thin" => options.thin = Some(Program::Served(Server::new(value()?.into()))),
            "--thin-started" => options.thin = Some(Program::Started(value()?.into())),
            "--replay" => options.replay = Some(value()?.into()),
            "--answer" => options.answer = Some(value()?),
            _ => return Err(format!("no option {word}")),
        }
    }
    Ok(options)
}

/// Holds cases to the second program; the first few failures are printed with a text that reproduces them.
struct Tally {
    product: Product,
    judge: Judge,
    held: u64,
    failed: u64,
}

const MOST_SHOWN: u64 = 5;

impl Tally {
    fn new(options: &mut Options) -> Tally {
        let library = options.library.clone().map(Library::new);
        let product = Product { library, bones: options.bones.take(), thin: options.thin.take() };
        Tally { product, judge: Judge::default(), held: 0, failed: 0 }
    }

    fn has_library(&self) -> bool {
        self.product.library.is_some()
    }

    fn programs(&self) -> Vec<Call> {
        PROGRAMS.into_iter().filter(|program| self.product.has(*program)).collect()
    }

    fn hold(&mut self, cases: &[Case]) {
        for (case, outcome) in cases.iter().zip(self.product.outcomes(cases)) {
            self.settle(case, outcome);
        }
    }

    /// Holds one case and gives what came of it, if it is good.
    fn hold_one(&mut self, case: Case) -> Option<Outcome> {
        let outcome = self.product.outcomes(std::slice::from_ref(&case)).remove(0);
        self.settle(&case, outcome)
    }

    fn settle(&mut self, case: &Case, outcome: Result<Outcome, String>) -> Option<Outcome> {
        let good = outcome.and_then(|outcome| self.judge.hold(case, &outcome).map(|()| outcome));
        match &good {
            Ok(_) => self.held += 1,
            Err(what) => self.fail(case, what),
        }
        good.ok()
    }

    fn fail(&mut self, case: &Case, what: &str) {
        self.failed += 1;
        if self.failed <= MOST_SHOWN {
            println!("FAILED: {what}\n{}", case.reproduce(self.failed));
        }
    }

    fn enough(&self) -> bool {
        self.failed >= MOST_SHOWN
    }
}

/// The calls on a list, and with the run that grouping made, handed back. Lists that are not looked at thoroughly are thinned, written and
/// read one in three.
fn hold_calls(tally: &mut Tally, job: &Job, thorough: bool, rng: &mut Rng) {
    let Ok(pit) = judge_links(job.n, job.k, &job.links) else { return };
    let cuts = cutter::run(&pit, rng);
    let mut cases = plan::calls::cases(job, &pit, &cuts, thorough, rng);
    if let Some(Outcome::Called(done)) = tally.hold_one(Case::new(Call::Grouping, job.clone())) {
        cases.extend(plan::calls::handed_back(job, &done));
    }
    if thorough || rng.one_in(3) {
        cases.extend(plan::thinning::cases(job, rng));
        cases.extend(plan::writing::cases(job, &pit, &cuts, rng));
        cases.extend(plan::reading::cases(&plan::texts::of_list(job, rng), rng));
    }
    tally.hold(&cases);
}

/// A text of a list, for each program; now and then a text of what it printed: with the cuts of `bones`, and that of `thin` as it is.
fn hold_text(tally: &mut Tally, job: &Job, rng: &mut Rng) {
    let text = plan::texts::of_list(job, rng);
    let again = rng.one_in(4);
    for program in tally.programs() {
        let printed = tally.hold_one(Case::program(program, text.clone()));
        if let (Some(Outcome::Printed(printed)), true) = (printed, again) {
            let next = if program == Call::Thin { Some(printed) } else { plan::texts::printed_again(&text, &printed) };
            tally.hold(&next.map(|text| Case::program(program, text)).into_iter().collect::<Vec<_>>());
        }
    }
}

fn hold_list(tally: &mut Tally, turn: usize, options: &Options, seed: u64) {
    let mut rng = Rng::new(seed.wrapping_mul(1_000_003).wrapping_add(turn as u64));
    let job = lists::list(plan::size(turn, &mut rng), &mut rng);
    if tally.has_library() {
        hold_calls(tally, &job, rng.one_in(options.thorough), &mut rng);
    }
    if !tally.programs().is_empty() {
        hold_text(tally, &job, &mut rng);
    }
}

fn hold_lists(tally: &mut Tally, options: &Options, seed: u64) {
    for turn in 0..options.lists {
        if tally.enough() {
            return;
        }
        hold_list(tally, turn, options, seed);
    }
}

/// Texts at the limits, and small texts damaged in every way: for the programs, and for the reader, which is also lent too little.
fn hold_texts(tally: &mut Tally, options: &Options, seed: u64) {
    let mut rng = Rng::new(seed);
    let limits = plan::texts::at_limits();
    let small = plan::texts::small(options.texts, &mut rng);
    let damaged: Vec<Vec<u8>> = small.iter().flat_map(|text| plan::texts::damaged(text, &mut rng)).collect();
    let mut cases = Vec::new();
    if tally.has_library() {
        cases.extend(limits.iter().flat_map(|text| plan::reading::in_rooms(text, &mut rng)));
        cases.extend(damaged.iter().map(|text| plan::reading::of_text(text, &mut rng)));
    }
    for program in tally.programs() {
        cases.extend(limits.iter().chain(&damaged).map(|text| Case::program(program, text.clone())));
    }
    for some in cases.chunks(1000) {
        if tally.enough() {
            return;
        }
        tally.hold(some);
    }
}

/// The calls that were compared; the programs are among them.
fn compared(tally: &Tally) -> Vec<Call> {
    CALLS.into_iter().filter(|call| tally.product.has(*call)).collect()
}

/// How many cells of the table are wrong, which are printed: every row that a call can give must have been met in it, or the comparison has
/// a hole, and no other.
fn wrong_cells(tally: &Tally, calls: &[Call]) -> usize {
    let table = &tally.judge.table;
    let mut wrong = 0;
    for call in calls {
        for (rows, what) in [(table.unmet(*call), "met less than twice"), (table.strays(*call), "met, which cannot be")] {
            if !rows.is_empty() {
                println!("{}: rows {rows:?} {what}", call.name());
            }
            wrong += rows.len();
        }
    }
    wrong
}

fn report(tally: &Tally, start: Instant) -> bool {
    let calls = compared(tally);
    println!("carried out (0) and refused, by row of the refusal table:\n{}", tally.judge.table.text(&calls).trim_end());
    let wrong = wrong_cells(tally, &calls);
    if tally.held == 0 {
        println!("nothing was compared");
    }
    println!("compared in {:.0} s", start.elapsed().as_secs_f64());
    println!("{} passed, {} failed", tally.held, tally.failed + wrong as u64);
    tally.held > 0 && tally.failed == 0 && wrong == 0
}

fn replay(tally: &mut Tally, path: &PathBuf) -> Result<bool, String> {
    let text = std::fs::read_to_string(path).map_err(|error| error.to_string())?;
    let case = Case::from_text(&text).ok_or("not a case")?;
    tally.hold(&[case]);
    println!("{} passed, {} failed", tally.held, tally.failed);
    Ok(tally.failed == 0)
}

fn run(mut options: Options) -> Result<bool, String> {
    let start = Instant::now();
    self_test::run();
    if let Some(what) = &options.answer {
        return second::answer(what).map(|()| true);
    }
    let mut tally = Tally::new(&mut options);
    if let Some(path) = &options.replay {
        return replay(&mut tally, path);
    }
    let mut seed = options.seed;
    loop {
        hold_texts(&mut tally, &options, seed);
        hold_lists(&mut tally, &options, seed);
        seed += 1;
        if tally.enough() || start.elapsed() >= Duration::from_secs(options.soak) {
            return Ok(report(&tally, start));
        }
    }
}

fn main() {
    match options().and_then(run) {
        Ok(true) => {}
        Ok(false) => std::process::exit(1),
        Err(error) => {
            eprintln!("compare: {error}");
            std::process::exit(2);
        }
    }
}
