//! A tally as a Rust programmer would keep it: an array by the rule's number and the verdict, and beside it how many lines it has counted.

use std::io::{self, Write};

use oracle::answers::{FULL, refused};
use oracle::known::BY_NUMBER;
use oracle::library::Answer;

use crate::predicates::answer_line;

pub struct Tally {
    counts: [[u32; 4]; 563],
    lines: u32,
}

impl Tally {
    pub fn new() -> Self {
        Self {
            counts: [[0; 4]; 563],
            lines: 0,
        }
    }

    /// The answer to a line, which is counted.
    pub fn answer_line(&mut self, line: &[u8]) -> Answer {
        if self.lines == u32::MAX {
            return refused(0, 0, FULL);
        }
        let answer = answer_line(line);
        self.counts[answer.rule as usize][answer.verdict as usize] += 1;
        self.lines += 1;
        answer
    }

    /// A line for each rule, and one for what has no rule.
    pub fn rows(&self) -> Vec<Vec<u32>> {
        let of_rule = |rule: u32| [&[rule], &self.counts[rule as usize][1..]].concat();
        let rules = BY_NUMBER.iter().map(|known| of_rule(known.number()));
        let [none, _, refused, _] = self.counts[0];
        rules.chain([vec![none, refused]]).collect()
    }

    pub fn write(&self, output: &mut impl Write) -> io::Result<()> {
        for row in self.rows() {
            let words: Vec<_> = row.iter().map(u32::to_string).collect();
            writeln!(output, "{}", words.join(" "))?;
        }
        Ok(())
    }
}
