//! How often each outcome of each function came up, and the smallest input on which the two sides differ.

use std::any::TypeId;

use oracle::functions::{Found, Function, Input, Part, Row, shown, shown_counts};

use super::input::{Kept, smallest};

/// How the two sides answer, in words.
struct Difference {
    library: String,
    original: String,
}

/// The outcome of a function on an input, where both sides give the same.
fn compared<F: Function>(input: Input<'_>) -> Result<usize, Difference> {
    let (library, original) = (F::LIBRARY(input), F::ORIGINAL(input));
    match library == original {
        true => Ok(library.outcome(input)),
        false => Err(Difference {
            library: format!("{library:?}"),
            original: format!("{original:?}"),
        }),
    }
}

fn written(parts: &[Part], input: Input<'_>) -> String {
    let words = parts.iter().map(|part| match part {
        Part::Scheme => format!("scheme {}", shown(input.scheme)),
        Part::Number(name) => format!("{name} {}", input.number),
        Part::Counts => shown_counts(input.counts),
        Part::Content(name) => format!("{name} {}", shown(input.content)),
    });
    words.collect::<Vec<_>>().join(", ")
}

struct Counts {
    counts: Vec<u64>,
    different: u64,
    /// Whether a smallest input was sought in this block of the work: once for each, so that what is found hangs on no other block.
    sought: bool,
    smallest: Option<(Kept, Difference)>,
}

/// The counts of one function.
pub struct Tally {
    pub function: TypeId,
    parts: &'static [Part],
    outcomes: &'static [&'static str],
    rows: Vec<(Row, Counts)>,
    row: fn(Input<'_>) -> usize,
    compare: fn(Input<'_>) -> Result<usize, Difference>,
}

impl Tally {
    pub fn of<F: Function>() -> Self {
        let counts = || Counts {
            counts: vec![0; F::Found::OUTCOMES.len()],
            different: 0,
            sought: false,
            smallest: None,
        };
        Self {
            function: TypeId::of::<F>(),
            parts: F::PARTS,
            outcomes: F::Found::OUTCOMES,
            rows: F::ROWS().into_iter().map(|row| (row, counts())).collect(),
            row: F::ROW,
            compare: compared::<F>,
        }
    }

    pub fn compare(&mut self, input: Input<'_>) {
        let row = (self.row)(input);
        let (_, counts) = &mut self.rows[row];
        match (self.compare)(input) {
            Ok(outcome) => counts.counts[outcome] += 1,
            Err(_) => counts.differ(input, |input| {
                let difference = (self.compare)(input).err();
                difference.filter(|_| (self.row)(input) == row)
            }),
        }
    }

    pub fn begin_block(&mut self) {
        self.rows
            .iter_mut()
            .for_each(|(_, counts)| counts.sought = false);
    }

    pub fn join(&mut self, other: Self) {
        for ((_, counts), (_, other)) in self.rows.iter_mut().zip(other.rows) {
            counts.join(other);
        }
    }

    pub fn comparisons(&self) -> u64 {
        self.rows
            .iter()
            .map(|(_, counts)| counts.comparisons())
            .sum()
    }

    /// A line of the outcomes' names, unless they stand there already, and a line for each row.
    pub fn print(&self, above: Option<&Self>) {
        if above.is_none_or(|above| above.outcomes != self.outcomes) {
            let names: String = self.outcomes.iter().map(|name| column(name)).collect();
            println!("\n{:<18}{names}", "");
        }
        for ((name, must), row) in &self.rows {
            let counts = row.counts.iter().zip(self.outcomes);
            let shown = counts.map(|(count, outcome)| match count {
                0 if !must.contains(outcome) => column("-"),
                count => column(&count.to_string()),
            });
            println!("{name:<18}{}", shown.collect::<String>());
        }
    }

    /// What is not well, in words: outcomes that never came up although they have to, and differences.
    pub fn troubles(&self) -> Vec<String> {
        let mut troubles = Vec::new();
        for ((name, must), row) in &self.rows {
            let counts = row.counts.iter().zip(self.outcomes);
            for (_, outcome) in counts.filter(|(n, outcome)| **n == 0 && must.contains(outcome)) {
                troubles.push(format!("{name}: {outcome} never came up"));
            }
            if 0 < row.different {
                let times = format!("{name}: {} times different", row.different);
                troubles.push(times + &row.told(self.parts));
            }
        }
        troubles
    }
}

fn column(word: &str) -> String {
    format!("{word:>14}")
}

impl Counts {
    fn differ(&mut self, input: Input<'_>, difference: impl Fn(Input<'_>) -> Option<Difference>) {
        self.different += 1;
        if std::mem::replace(&mut self.sought, true) {
            return;
        }
        let found = smallest(input, |input| difference(input).is_some());
        if let Some(difference) = difference(found.input()) {
            self.keep(found, difference);
        }
    }

    fn keep(&mut self, found: Kept, difference: Difference) {
        let smaller = |(kept, _): &(Kept, Difference)| found < *kept;
        if self.smallest.as_ref().is_none_or(smaller) {
            self.smallest = Some((found, difference));
        }
    }

    /// The smallest input with both answers. None is known where no answer was the same when asked for again.
    fn told(&self, parts: &[Part]) -> String {
        let Some((kept, Difference { library, original })) = &self.smallest else {
            return ", but not when asked again".to_owned();
        };
        let input = written(parts, kept.input());
        format!(", smallest on\n    {input}\n    library   {library}\n    original  {original}")
    }

    fn join(&mut self, other: Self) {
        for (count, more) in self.counts.iter_mut().zip(other.counts) {
            *count += more;
        }
        self.different += other.different;
        if let Some((found, difference)) = other.smallest {
            self.keep(found, difference);
        }
    }

    fn comparisons(&self) -> u64 {
        self.different + self.counts.iter().sum::<u64>()
    }
}
