//! The answers to some lines of a text, which the library gives at one call.

use crate::Answer;
use crate::contract;
use crate::raw;
use core::fmt;

// the numbers of an answer
const NUMBERS: usize = 4;

// how many lines are asked for at a time: enough that a call's own cost is lost among them
const PIECE: usize = 128;

#[derive(Clone)]
pub(crate) struct Piece {
    numbers: [u32; PIECE * NUMBERS],
    next: usize,
    count: usize,
}

impl Piece {
    pub fn empty() -> Self {
        Piece {
            numbers: [0; PIECE * NUMBERS],
            next: 0,
            count: 0,
        }
    }

    /// How many answers are still to be taken.
    pub fn left(&self) -> usize {
        self.count - self.next
    }

    /// Asks for the answers to the first lines of a text, and gives how many bytes these are. Whatever has a byte has a line, so that a piece
    /// is never empty.
    pub fn fill(
        &mut self,
        text: &[u8],
        ask: impl FnOnce(&[u8], &mut [u32]) -> raw::Batch,
    ) -> usize {
        let batch = ask(text, &mut self.numbers);
        if batch.count == 0 || batch.count > PIECE || batch.used > text.len() {
            contract::broken("batch", &batch);
        }
        self.next = 0;
        self.count = batch.count;
        batch.used
    }

    pub fn take(&mut self) -> Option<Answer> {
        if self.next == self.count {
            return None;
        }
        let at = self.next * NUMBERS;
        self.next += 1;
        Some(Answer::of_library(raw::Answer {
            verdict: self.numbers[at],
            rule: self.numbers[at + 1],
            severity: self.numbers[at + 2],
            reason: self.numbers[at + 3],
        }))
    }

    /// Room for the answers that were taken, and for no other.
    pub fn taken(&mut self) -> &mut [u32] {
        &mut self.numbers[..self.next * NUMBERS]
    }

    /// Of an iterator over the answers to the lines of a text, of which the rest is not asked about yet.
    pub fn debug(&self, name: &str, rest: &[u8], f: &mut fmt::Formatter<'_>) -> fmt::Result {
        f.debug_struct(name)
            .field("ready", &self.left())
            .field("rest", &rest.len())
            .finish()
    }
}
