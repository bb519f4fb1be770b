//! What is known of a function of the library, and stands once for the comparison, for the replayed list and for the bench: how it is called, what
//! the original answers, what can come of it and how that is written. Each subject's file has its functions beside the original's answers.

use std::fmt::{self, Debug};

/// A scheme, a number (a term, a room, a place, a code point), a tally's counts, of which the last ones may be left out where they are zeros, and a
/// content. A function reads those that it has words for.
#[derive(Clone, Copy, Default)]
pub struct Input<'a> {
    pub scheme: &'a [u8],
    pub number: u64,
    pub counts: &'a [u32],
    pub content: &'a [u8],
}

impl<'a> Input<'a> {
    pub fn of(content: &'a [u8]) -> Self {
        Self {
            content,
            ..Self::default()
        }
    }
}

/// A part of an input that a function reads, and the word for it.
pub enum Part {
    Scheme,
    Number(&'static str),
    Counts,
    Content(&'static str),
}

/// What is counted by itself, and the outcomes that have to come up.
pub type Row = (String, Vec<&'static str>);

pub type Call<A> = fn(Input<'_>) -> A;
pub type Rows = fn() -> Vec<Row>;

pub trait Function: 'static {
    type Found: Found;
    /// In the order in which an example has them.
    const PARTS: &[Part];
    const LIBRARY: Call<Self::Found>;
    const ORIGINAL: Call<Self::Found>;
    const ROWS: Rows;
    /// The row that an input counts for.
    const ROW: Call<usize> = |_| 0;
    /// The command of `cases` and `replay` that calls it (crates/examples/README.md).
    const LETTER: char = '-';
}

/// What functions answer, and what that counts as.
pub trait Found: Debug + PartialEq {
    const OUTCOMES: &[&str];

    /// The place among the outcomes.
    fn outcome(&self, input: Input<'_>) -> usize;

    /// As the examples have it, each part of it behind a space.
    fn written(&self) -> String {
        format!(" {self:?}")
    }
}

/// One row.
pub fn row(name: &str, outcomes: &[&'static str]) -> Vec<Row> {
    vec![(name.to_owned(), outcomes.to_vec())]
}

/// What is answered together with an area that was lent: the numbers, and every place of the area.
#[derive(PartialEq)]
pub struct Lent<H, T> {
    pub head: H,
    pub area: Vec<T>,
}

impl<H, T: Clone> Lent<H, T> {
    /// The area as it was filled, but for what is written at its start.
    pub fn filled(head: H, written: &[T], fill: T, room: usize) -> Self {
        assert!(written.len() <= room);
        let mut area = Vec::with_capacity(room);
        area.extend_from_slice(written);
        area.resize(room, fill);
        Self { head, area }
    }
}

impl<H: Debug> Debug for Lent<H, u8> {
    fn fmt(&self, f: &mut fmt::Formatter<'_>) -> fmt::Result {
        write!(f, "{:?}, area {}", self.head, shown(&self.area))
    }
}

impl<H: Debug> Debug for Lent<H, u32> {
    fn fmt(&self, f: &mut fmt::Formatter<'_>) -> fmt::Result {
        write!(f, "{:?}, area {:?}", self.head, self.area)
    }
}

/// Bytes as they are written in Rust, but for long runs of one byte.
pub fn shown(bytes: &[u8]) -> String {
    const LONG: usize = 32;
    let mut words = Vec::new();
    let mut short = 0..0;
    let literal = |bytes: &[u8]| format!("b\"{}\"", bytes.escape_ascii());
    for run in bytes.chunk_by(|a, b| a == b) {
        let end = short.end + run.len();
        if run.len() < LONG {
            short.end = end;
            continue;
        }
        if !short.is_empty() {
            words.push(literal(&bytes[short.clone()]));
        }
        words.push(format!("{} times {}", run.len(), literal(&run[..1])));
        short = end..end;
    }
    if !short.is_empty() || words.is_empty() {
        words.push(literal(&bytes[short]));
    }
    words.join(", then ")
}

/// The counts that are not zero, each behind its place.
pub fn shown_counts(counts: &[u32]) -> String {
    let counted = counts.iter().enumerate().filter(|(_, count)| **count != 0);
    let words = counted.map(|(at, count)| format!("{at}: {count}"));
    format!("counts {{{}}}", words.collect::<Vec<_>>().join(", "))
}

/// Bytes as the examples have them: plain ASCII as it is; any other byte, and `\`, as `\` and two hexadecimal digits.
pub fn escaped(content: &[u8]) -> String {
    content
        .iter()
        .map(|&b| match b {
            b'\\' => "\\5c".to_owned(),
            0x20..0x7f => char::from(b).to_string(),
            _ => format!("\\{b:02x}"),
        })
        .collect()
}
