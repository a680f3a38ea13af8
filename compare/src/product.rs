//! The product under test: its library, its programs, or some of them.

use crate::call::Call;
use crate::case::Case;
use crate::library::{Done, Library};
use crate::program::Program;

pub enum Outcome {
    Called(Done),
    Printed(Vec<u8>),
}

pub struct Product {
    pub library: Option<Library>,
    pub bones: Option<Program>,
    pub thin: Option<Program>,
}

/// The program of a case, or none where it is a call from C.
fn program_of(case: &Case) -> Option<Call> {
    case.call.is_program().then_some(case.call)
}

impl Product {
    /// Whether there is something to make the call of.
    pub fn has(&self, call: Call) -> bool {
        match call {
            Call::Bones => self.bones.is_some(),
            Call::Thin => self.thin.is_some(),
            _ => self.library.is_some(),
        }
    }

    /// What comes of each case, or how the product failed; cases of one kind that stand together are handed over together.
    pub fn outcomes(&mut self, cases: &[Case]) -> Vec<Result<Outcome, String>> {
        cases.chunk_by(|a, b| program_of(a) == program_of(b)).flat_map(|some| self.of_one_kind(some)).collect()
    }

    fn of_one_kind(&mut self, cases: &[Case]) -> Vec<Result<Outcome, String>> {
        match program_of(&cases[0]) {
            Some(program) => {
                let texts: Vec<Vec<u8>> = cases.iter().map(|case| case.job.text.clone()).collect();
                self.printed(program, &texts).into_iter().map(|printed| printed.map(Outcome::Printed)).collect()
            }
            None => self.called(cases).into_iter().map(|done| done.map(Outcome::Called)).collect(),
        }
    }

    fn printed(&mut self, program: Call, texts: &[Vec<u8>]) -> Vec<Result<Vec<u8>, String>> {
        let program = if program == Call::Thin { &mut self.thin } else { &mut self.bones };
        match program {
            Some(program) => program.printed(texts),
            None => texts.iter().map(|_| Err("there is no program to run".to_string())).collect(),
        }
    }

    fn called(&mut self, cases: &[Case]) -> Vec<Result<Done, String>> {
        match &mut self.library {
            Some(library) => library.call(cases),
            None => cases.iter().map(|_| Err("there is no library to call".to_string())).collect(),
        }
    }
}
