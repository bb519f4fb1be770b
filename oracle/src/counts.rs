//! A tally: lines are answered as in `lines`, and counted by the rule and the verdict of the answer.

use std::fmt::{self, Debug};
use std::sync::LazyLock;

use crate::answers::{FULL, OF_A_LINE, refused};
use crate::functions::Part::{Content, Counts, Number};
use crate::functions::{Call, Found, Function, Input, Part, Rows, row, shown_counts};
use crate::known::BY_NUMBER;
use crate::library::{self, Answer, TALLY_COUNTS};
use crate::lines::{Answers, Lines, answer_line, by_parts, called, each_line, room_for_all};

/// Every count of a tally.
#[derive(Clone, Copy, PartialEq)]
pub struct Tally([u32; TALLY_COUNTS]);

impl Debug for Tally {
    fn fmt(&self, f: &mut fmt::Formatter<'_>) -> fmt::Result {
        f.write_str(&shown_counts(&self.0))
    }
}

/// The most lines that a tally counts.
pub const LIMIT: u64 = 0xffff_ffff;

/// The rule and the verdict that each count is of. Two are of no rule: none reads the field, or the line is refused before one is looked for.
static CELLS: LazyLock<Vec<(u32, u32)>> = LazyLock::new(|| {
    let numbers = BY_NUMBER.iter().map(|known| known.number());
    let cells = numbers.flat_map(|rule| [1, 2, 3].map(|verdict| (rule, verdict)));
    cells.chain([(0, 0), (0, 2)]).collect()
});

fn sum(counts: &[u32]) -> u64 {
    counts.iter().copied().map(u64::from).sum()
}

/// The answer to a line, which is counted unless the tally is full.
fn tally_line(line: &[u8], tally: &mut Tally) -> Answer {
    if LIMIT <= sum(&tally.0) {
        return refused(0, 0, FULL);
    }
    let answer = answer_line(line);
    let counted = (answer.rule, answer.verdict);
    let cell = CELLS.iter().position(|&cell| cell == counted);
    tally.0[cell.expect("a count for every answer")] += 1;
    answer
}

fn tally_lines(text: &[u8], tally: &mut Tally, room: usize) -> Answers {
    each_line(text, room, |line| tally_line(line, tally))
}

/// The tally of an input.
fn tally_of(input: Input<'_>) -> Tally {
    let mut counts = [0; TALLY_COUNTS];
    counts[..input.counts.len()].copy_from_slice(input.counts);
    Tally(counts)
}

pub struct TallyLine;

/// The answer, and every count after it.
#[derive(Debug, PartialEq)]
pub struct Tallied {
    answer: Answer,
    tally: Tally,
}

impl Function for TallyLine {
    type Found = Tallied;
    const PARTS: &[Part] = &[Counts, Content("line")];
    const LIBRARY: Call<Tallied> =
        |i| tallied(i, |line, tally| library::tally_line(line, &mut tally.0));
    const ORIGINAL: Call<Tallied> = |i| tallied(i, tally_line);
    /// By how many lines are still counted: more than one, one, none; and counts that are more than lines can make them.
    const ROWS: Rows = || {
        let (counted, full) = Answer::OUTCOMES.split_at(OF_A_LINE);
        let rows = [
            ("tally_line", counted),
            ("tally_line, last", counted),
            ("tally_line, full", full),
            ("tally_line, over", full),
        ];
        rows.map(|(name, must)| (name.to_owned(), must.to_vec()))
            .into()
    };
    const ROW: Call<usize> = |i| match sum(i.counts) {
        ..LAST => 0,
        LAST => 1,
        LIMIT => 2,
        _ => 3,
    };
}

/// What the counts add up to where one more line is counted.
const LAST: u64 = LIMIT - 1;

fn tallied(input: Input<'_>, feed: fn(&[u8], &mut Tally) -> Answer) -> Tallied {
    let mut tally = tally_of(input);
    let answer = feed(input.content, &mut tally);
    Tallied { answer, tally }
}

impl Found for Tallied {
    const OUTCOMES: &[&str] = Answer::OUTCOMES;

    fn outcome(&self, input: Input<'_>) -> usize {
        self.answer.outcome(input)
    }
}

pub struct TallyLines;

/// The lines as they are answered, and the counts after one call and after as many as it takes to the end.
#[derive(Debug, PartialEq)]
pub struct TalliedLines {
    lines: Lines,
    first: Tally,
    all: Tally,
}

impl Function for TallyLines {
    type Found = TalliedLines;
    const PARTS: &[Part] = &[Number("room"), Counts, Content("text")];
    const LIBRARY: Call<TalliedLines> = |i| {
        let room = i.number as usize;
        let [mut first, mut all] = [tally_of(i); 2];
        let lines = Lines {
            first: called(i.content, room, |text, out| {
                library::tally_lines(text, &mut first.0, out)
            }),
            all: by_parts(i.content, room, |text, out| {
                library::tally_lines(text, &mut all.0, out)
            }),
        };
        TalliedLines { lines, first, all }
    };
    const ORIGINAL: Call<TalliedLines> = |i| {
        let room = i.number as usize;
        let [mut first, mut all] = [tally_of(i); 2];
        let lines = Lines::answered(
            room,
            tally_lines(i.content, &mut first, room),
            tally_lines(i.content, &mut all, room_for_all(room)),
        );
        TalliedLines { lines, first, all }
    };
    const ROWS: Rows = || row("tally_lines", TalliedLines::OUTCOMES);
}

impl Found for TalliedLines {
    #[rustfmt::skip]
    const OUTCOMES: &[&str] = &["no line", "no room", "some lines", "all, ended", "all, unended", "FULL", "FULL later"];

    fn outcome(&self, input: Input<'_>) -> usize {
        let mut reasons = self
            .lines
            .first
            .area
            .chunks_exact(4)
            .map(|answer| answer[3]);
        match reasons.position(|reason| reason == FULL) {
            None => self.lines.outcome(input),
            Some(0) => 5,
            Some(_) => 6,
        }
    }
}
