//! Holds each answer of the product to what the second program says of the same case.

use crate::call::Call;
use crate::case::Case;
use crate::known::Memory;
use crate::lent::in_form;
use crate::library::{told, Done};
use crate::product::Outcome;
use crate::second::calls::{judge_checking, judge_grouping, judge_thinning, kept, Job};
use crate::second::pit::Pit;
use crate::second::record::{cuts_of, judge_run, record_of, Heap, ENTRY};
use crate::second::text::{asked, cuts_shown, read, refusal_text, result_text, write_input, write_result, Input, MOST_BYTES};
use crate::second::Refusal;
use crate::table::Table;

/// Says what is wrong if it is.
fn demand(holds: bool, what: &str) -> Result<(), String> {
    demand_or(holds, || what.to_string())
}

fn demand_or(holds: bool, what: impl FnOnce() -> String) -> Result<(), String> {
    if holds {
        Ok(())
    } else {
        Err(what())
    }
}

fn demand_told(done: &Done, wanted: &[usize]) -> Result<(), String> {
    demand_or(done.told == told(wanted), || format!("answered {:?}, wanted {wanted:?}", done.told))
}

/// What the second program makes of a case, where it is no refusal.
enum Good {
    Grouped(Pit),
    Checked(Pit, Heap),
    Thinned(Pit),
    Read(Input),
    Written(String),
    Printed(Job, Pit),
    PrintedThin(Job, Pit),
}

fn second(case: &Case) -> Result<Good, Refusal> {
    let job = &case.job;
    match case.call {
        Call::Grouping | Call::GroupingRecords => judge_grouping(job).map(|(pit, _)| Good::Grouped(pit)),
        Call::Checking | Call::CheckingRecords => judge_checking(job).map(|(pit, heap)| Good::Checked(pit, heap)),
        Call::Thinning => judge_thinning(job.n, job.k, &job.links, job.link_room / 4).map(Good::Thinned),
        Call::ThinningRecords => judge_thinning(job.n, job.k, &job.links, job.link_room).map(Good::Thinned),
        Call::Read => read(&job.text, job.link_room, job.space).map(Good::Read),
        Call::WriteInput => write_input(job.n, job.k, &job.links, &job.record, job.text_room).map(Good::Written),
        Call::WriteResult => write_result(job.n, job.k, &job.links, &job.record, job.text_room).map(Good::Written),
        Call::Bones => {
            let job = asked(&job.text)?;
            let (pit, _) = judge_grouping(&job)?;
            Ok(Good::Printed(job, pit))
        }
        Call::Thin => {
            let job = asked(&job.text)?;
            let pit = judge_thinning(job.n, job.k, &job.links, 4096)?;
            Ok(Good::PrintedThin(job, pit))
        }
    }
}

#[derive(Default)]
pub struct Judge {
    memory: Memory,
    pub table: Table,
}

impl Judge {
    /// Says what is wrong with what the product made of a case.
    pub fn hold(&mut self, case: &Case, outcome: &Outcome) -> Result<(), String> {
        let wanted = second(case);
        self.table.count(case.call, wanted.as_ref().err().map_or(0, |refusal| refusal.number as usize));
        match (wanted, outcome) {
            (Err(refusal), Outcome::Called(done)) => hold_refusal(refusal, done),
            (Err(refusal), Outcome::Printed(printed)) => hold_printed_refusal(refusal, printed),
            (Ok(Good::Grouped(pit)), Outcome::Called(done)) => self.hold_grouping(&case.job, &pit, done),
            (Ok(Good::Checked(pit, heap)), Outcome::Called(done)) => self.hold_checking(&case.job, &pit, &heap, done),
            (Ok(Good::Thinned(pit)), Outcome::Called(done)) => self.hold_thinning(case, &pit, done),
            (Ok(Good::Read(input)), Outcome::Called(done)) => hold_read(&input, done),
            (Ok(Good::Written(text)), Outcome::Called(done)) => hold_written(&text, done),
            (Ok(Good::Printed(job, pit)), Outcome::Printed(printed)) => self.hold_result(&job, &pit, printed),
            (Ok(Good::PrintedThin(job, pit)), Outcome::Printed(printed)) => self.hold_thinned(&job, &pit, printed),
            _ => Err("an outcome of another kind".to_string()),
        }
    }

    fn hold_grouping(&mut self, job: &Job, pit: &Pit, done: &Done) -> Result<(), String> {
        let known = self.memory.of(job);
        let length = ENTRY * (known.count() - 1);
        demand_told(done, &[0, 0, known.count(), 1])?;
        demand(done.room(0, pit.n) == known.labels(), "labels")?;
        demand(done.wrote_only(&[pit.n, length]), "a byte changed that may not")?;
        let record = done.room(1, length);
        demand(record.starts_with(&job.record), "the given cuts are not kept")?;
        let heap = judge_run(pit, &cuts_of(record)).map_err(|refusal| format!("the run is not lawful: {refusal:?}"))?;
        demand(heap.names(pit.n) == known.labels(), "the run does not lead to the labels")
    }

    fn hold_checking(&mut self, job: &Job, pit: &Pit, heap: &Heap, done: &Done) -> Result<(), String> {
        let finished = self.memory.of(job).is_finished(heap);
        demand_told(done, &[0, 0, heap.piles.len(), usize::from(finished)])?;
        demand(done.room(0, pit.n) == heap.names(pit.n), "pile names")?;
        demand(done.wrote_only(&[pit.n]), "a byte changed that may not")
    }

    fn hold_thinning(&mut self, case: &Case, pit: &Pit, done: &Done) -> Result<(), String> {
        let links = kept(pit, &self.memory.of(&case.job).labels());
        demand_told(done, &[0, 0, links.len() / 4])?;
        demand(done.room(0, links.len()) == in_form(case.call, &links), "the links kept")?;
        demand(done.wrote_only(&[links.len()]), "a byte changed that may not")
    }

    /// The text of the links kept, as the second program's own input writer has it.
    fn hold_thinned(&mut self, job: &Job, pit: &Pit, printed: &[u8]) -> Result<(), String> {
        let links = kept(pit, &self.memory.of(job).labels());
        let wanted = write_input(job.n, job.k, &links, &[], MOST_BYTES).map_err(|refusal| format!("no text of the links kept: {refusal:?}"))?;
        demand_or(printed == wanted.as_bytes(), || format!("printed {:?}, wanted {wanted:?}", String::from_utf8_lossy(printed)))
    }

    /// The cuts that were printed begin with those given, are lawful and lead to the groups; the whole text is then settled.
    fn hold_result(&mut self, job: &Job, pit: &Pit, printed: &[u8]) -> Result<(), String> {
        let shown = || format!("printed {:?}", String::from_utf8_lossy(printed));
        let cuts = cuts_shown(printed).ok_or_else(shown)?;
        demand(record_of(&cuts).starts_with(&job.record), "the given cuts are not kept")?;
        let heap: Heap = judge_run(pit, &cuts).map_err(|refusal| format!("{}: not lawful: {refusal:?}", shown()))?;
        let known = self.memory.of(job);
        demand_or(heap.names(pit.n) == known.labels(), || format!("{}: wrong groups", shown()))?;
        let wanted = result_text(pit, &cuts, &heap);
        demand_or(printed == wanted.as_bytes(), || format!("{}, wanted {wanted:?}", shown()))
    }
}

fn hold_refusal(refusal: Refusal, done: &Done) -> Result<(), String> {
    demand_told(done, &[refusal.number as usize, refusal.place as usize])?;
    demand(done.wrote_nothing(), "a refusal changed a byte")
}

fn hold_read(input: &Input, done: &Done) -> Result<(), String> {
    let (links, record) = (in_form(Call::Read, &input.links), &input.record);
    demand_told(done, &[0, 0, input.n.into(), input.k.into(), links.len() / 4, record.len() / ENTRY])?;
    demand(done.room(0, links.len()) == links, "the links read")?;
    demand(done.room(1, record.len()) == record, "the cuts read")?;
    demand(done.wrote_only(&[links.len(), record.len()]), "a byte changed that may not")
}

fn hold_written(text: &str, done: &Done) -> Result<(), String> {
    demand_told(done, &[0, 0, text.len()])?;
    let written = done.room(0, text.len());
    demand_or(written == text.as_bytes(), || format!("wrote {:?}, wanted {text:?}", String::from_utf8_lossy(written)))?;
    demand(done.wrote_only(&[text.len()]), "a byte changed that may not")
}

fn hold_printed_refusal(refusal: Refusal, printed: &[u8]) -> Result<(), String> {
    let wanted = refusal_text(refusal);
    demand_or(printed == wanted.as_bytes(), || format!("printed {:?}, wanted {wanted:?}", String::from_utf8_lossy(printed)))
}
