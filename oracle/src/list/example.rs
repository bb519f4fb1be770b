//! An example of the list, made of a function and what it is called with.

use oracle::functions::{Found, Function, Input, Part};

/// A content with the words before it, what the original answers, and what that counts as.
pub struct Example {
    pub head: Vec<u8>,
    pub content: Vec<u8>,
    pub answer: String,
    pub outcome: &'static str,
}

/// What a content of just 1,024 bytes counts as, whatever the answer, and a longer one that is not LONG.
pub const AT_THE_LIMIT: &str = "1,024 bytes";
pub const PAST_THE_LIMIT: &str = "more than 1,024 bytes";

impl Example {
    /// A function of a scheme, a number and a content, as far as it reads them.
    pub fn of<F: Function>(scheme: &[u8], number: u64, content: Vec<u8>) -> Self {
        let input = Input {
            scheme,
            number,
            content: &content,
            ..Input::default()
        };
        let found = F::ORIGINAL(input);
        Self {
            head: head(F::PARTS, input),
            answer: found.written(),
            outcome: F::Found::OUTCOMES[found.outcome(input)],
            content,
        }
    }

    /// The first bytes of the content count as words before it.
    pub fn behind(mut self, bytes: usize) -> Self {
        self.head.extend(self.content.drain(..bytes));
        self
    }

    /// Counted under a name of its own.
    pub fn named(self, name: impl Fn(&'static str) -> &'static str) -> Self {
        let outcome = name(self.outcome);
        Self { outcome, ..self }
    }

    pub fn whole(&self) -> Vec<u8> {
        [&self.head[..], &self.content].concat()
    }

    pub fn counts_as(&self) -> &'static str {
        match self.content.len() {
            1024 => AT_THE_LIMIT,
            1025.. if self.outcome != "LONG" => PAST_THE_LIMIT,
            _ => self.outcome,
        }
    }
}

/// The words before the content.
fn head(parts: &[Part], input: Input<'_>) -> Vec<u8> {
    let words = parts.iter().map(|part| match part {
        Part::Scheme => [input.scheme, b" "].concat(),
        Part::Number(_) => format!("{} ", input.number).into_bytes(),
        Part::Counts => unreachable!("no command reads a tally's counts"),
        Part::Content(_) => Vec::new(),
    });
    words.collect::<Vec<_>>().concat()
}
