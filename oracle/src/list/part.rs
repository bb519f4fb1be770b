//! A part of the list: examples are drawn until each outcome has as many as are wanted.

use std::collections::BTreeSet;
use std::fmt;

use oracle::functions::{Function, escaped};
use oracle::random::Random;

use crate::example::{AT_THE_LIMIT, Example, PAST_THE_LIMIT};

/// Draws an example: at random, or by damaging one of the good contents it is given.
type Draw = Box<dyn Fn(&mut Random, &[Vec<u8>]) -> Example>;

/// The examples of a command, or of a rule or scheme under it.
pub struct Part {
    command: char,
    about: String,
    /// Every outcome there is, and how many examples of it.
    wanted: Vec<(&'static str, usize)>,
    /// The most bytes of a content, but for those at the limit.
    most: usize,
    draw: Draw,
}

/// Counts of these stand beside those of the outcomes.
const LIMITS: [&str; 2] = [AT_THE_LIMIT, PAST_THE_LIMIT];

/// The outcomes whose contents are worth damaging.
const GOOD: [&str; 3] = ["accepted", "done", "GOOD"];

/// How many good contents are drawn at random before others are made of them.
const FOUNDERS: usize = 18;

/// After so many draws an outcome that is still short counts as one that does not come up.
const DRAWS: usize = 3_000_000;

/// Longer contents, up to the limit, show nothing that shorter ones do not, and make the list large.
const MOST: usize = 59;

/// How much the programs read of a line.
const ROOM: usize = 2048;

impl Part {
    pub fn new(
        command: char,
        about: &str,
        wanted: &[(&'static str, usize)],
        draw: impl Fn(&mut Random, &[Vec<u8>]) -> Example + 'static,
    ) -> Self {
        Self {
            command,
            about: about.to_owned(),
            wanted: wanted.to_vec(),
            most: MOST,
            draw: Box::new(draw),
        }
    }

    /// The part of a row of a function: so many examples of each of its outcomes, and at the limit or past it.
    pub fn of<F: Function>(
        row: usize,
        counts: &[(&'static str, usize)],
        draw: impl Fn(&mut Random, &[Vec<u8>]) -> Example + 'static,
    ) -> Self {
        let (about, outcomes) = F::ROWS().swap_remove(row);
        let count = |outcome: &&str| {
            let count = counts.iter().find(|(name, _)| name == outcome);
            count.unwrap_or_else(|| panic!("{about}: no count of {outcome}"))
        };
        let limits = counts.iter().filter(|(name, _)| LIMITS.contains(name));
        let wanted = outcomes.iter().map(count).chain(limits);
        let wanted: Vec<_> = wanted.copied().collect();
        Self::new(F::LETTER, &about, &wanted, draw)
    }

    /// With contents of so many bytes.
    pub fn up_to(self, most: usize) -> Self {
        Self { most, ..self }
    }

    /// The examples, no two alike; or what is wrong with the part.
    pub fn examples(&self, seed: u64) -> Result<Vec<Example>, String> {
        let mut r = Random::new(seed);
        let founders = self.founders(&mut r);
        let mut left = self.wanted.clone();
        let mut seen = BTreeSet::new();
        let mut examples = Vec::new();
        for _ in 0..DRAWS {
            if left.iter().all(|&(_, n)| n == 0) {
                return Ok(examples);
            }
            let example = (self.draw)(&mut r, &founders);
            if self.is_too_long(&example) || seen.contains(&example.whole()) {
                continue;
            }
            if self.take(&mut left, example.counts_as())? {
                seen.insert(example.whole());
                examples.push(example);
            }
        }
        left.retain(|&(_, n)| n != 0);
        Err(format!("{self}\nstill to be found: {left:?}"))
    }

    /// Good contents by chance alone, so that what is made of them does not all come from one. None where there is no such outcome.
    fn founders(&self, r: &mut Random) -> Vec<Vec<u8>> {
        let is_good = |name| GOOD.contains(&name);
        if !self.wanted.iter().any(|&(name, _)| is_good(name)) {
            return Vec::new();
        }
        std::iter::repeat_with(|| (self.draw)(r, &[]))
            .take(DRAWS)
            .filter(|example| is_good(example.counts_as()) && !self.is_too_long(example))
            .map(|example| example.content)
            .take(FOUNDERS)
            .collect()
    }

    /// Whether an example of the outcome is still wanted. An outcome that is not listed is an error.
    fn take(&self, left: &mut [(&str, usize)], outcome: &str) -> Result<bool, String> {
        let Some((_, n)) = left.iter_mut().find(|(name, _)| *name == outcome) else {
            return match outcome {
                AT_THE_LIMIT | PAST_THE_LIMIT => Ok(false),
                _ => Err(format!("{self}\nnot listed: {outcome}")),
            };
        };
        let is_wanted = 0 < *n;
        *n = n.saturating_sub(1);
        Ok(is_wanted)
    }

    fn is_too_long(&self, example: &Example) -> bool {
        let length = example.content.len();
        (self.most + 1..1024).contains(&length) || ROOM < example.whole().len()
    }

    /// An example as it stands in the list.
    pub fn line(&self, example: &Example) -> String {
        format!("{} {}", self.command, escaped(&example.whole()))
    }
}

impl fmt::Display for Part {
    fn fmt(&self, f: &mut fmt::Formatter<'_>) -> fmt::Result {
        let wanted = self.wanted.iter().map(|(name, n)| format!("{name} {n}"));
        let wanted: Vec<String> = wanted.collect();
        write!(f, "{} {}: {}", self.command, self.about, wanted.join("; "))
    }
}
