//! The tallies of a run.

use std::any::TypeId;

use oracle::accounts::{Creditor, EasValue, Iban, Withdrawn};
use oracle::corrections::{Complete, List};
use oracle::counts::{TallyLine, TallyLines};
use oracle::functions::{Function, Input};
use oracle::lines::{AnswerLine, AnswerLines};
use oracle::rules::{ByRule, Check};
use oracle::text::{Decode, IsWhite, NormalizeSpace, Strip};

use super::tally::Tally;

pub struct Report {
    tallies: Vec<Tally>,
}

impl Report {
    /// The functions in the order in which they are printed.
    pub fn new() -> Self {
        Self {
            tallies: vec![
                Tally::of::<Decode>(),
                Tally::of::<IsWhite>(),
                Tally::of::<NormalizeSpace>(),
                Tally::of::<Strip>(),
                Tally::of::<ByRule>(),
                Tally::of::<Check>(),
                Tally::of::<Iban>(),
                Tally::of::<Creditor>(),
                Tally::of::<EasValue>(),
                Tally::of::<AnswerLine>(),
                Tally::of::<TallyLine>(),
                Tally::of::<Withdrawn>(),
                Tally::of::<Complete>(),
                Tally::of::<List>(),
                Tally::of::<AnswerLines>(),
                Tally::of::<TallyLines>(),
            ],
        }
    }

    pub fn compare<F: Function>(&mut self, input: Input<'_>) {
        let function = TypeId::of::<F>();
        let mut tallies = self.tallies.iter_mut();
        let tally = tallies.find(|tally| tally.function == function);
        tally.expect("a function of the report").compare(input);
    }

    pub fn begin_block(&mut self) {
        self.tallies.iter_mut().for_each(Tally::begin_block);
    }

    pub fn join(&mut self, other: Self) {
        for (tally, other) in self.tallies.iter_mut().zip(other.tallies) {
            tally.join(other);
        }
    }

    pub fn comparisons(&self) -> u64 {
        self.tallies.iter().map(Tally::comparisons).sum()
    }

    pub fn print(&self) {
        let mut above = None;
        for tally in &self.tallies {
            tally.print(above);
            above = Some(tally);
        }
    }

    pub fn troubles(&self) -> Vec<String> {
        self.tallies.iter().flat_map(Tally::troubles).collect()
    }
}
