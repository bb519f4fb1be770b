//! Lines counted by rule and verdict.

use crate::piece::Piece;
use crate::raw;
use crate::{Answer, TALLY_COUNTS, Verdict};
use core::fmt;
use core::iter::FusedIterator;

/// The most lines that a tally counts.
pub const TALLY_LIMIT: u32 = 4_294_967_295;

// in the order of the counts, three for each: accepted, refused, let through unread
const RULES: [u32; 17] = [
    40, 41, 42, 43, 44, 45, 46, 47, 49, 50, 52, 53, 54, 55, 57, 561, 562,
];
const VERDICTS: usize = 3;

// the two others, behind those of the rules
const NO_RULE: usize = RULES.len() * VERDICTS;
const REFUSED_WITHOUT_RULE: usize = NO_RULE + 1;

/// How many lines each rule accepted, refused and let through unread, and how many had no rule. It is fed lines, and answers each.
///
/// A fresh one has counted nothing. It counts [`TALLY_LIMIT`] lines: one more is refused with [`Reason::Full`](crate::Reason::Full) and
/// changes nothing.
///
/// ```
/// use partyid::{Tally, Verdict};
///
/// let mut tally = Tally::new();
/// assert_eq!(tally.feed("0088 34 17").verdict, Verdict::Accepted);
/// let refused = tally
///     .feed_lines("0088 34 71\n0088 34 17\n0060 34 x\n")
///     .filter(|answer| answer.verdict == Verdict::Refused);
/// assert_eq!(refused.count(), 1);
///
/// assert_eq!(tally.count(40, Verdict::Accepted), Some(2));
/// assert_eq!(tally.no_rule(), 1);
/// assert_eq!(tally.total(), 4);
/// for row in tally.rules() {
///     println!("{} {} {} {}", row.rule, row.accepted, row.refused, row.unread);
/// }
/// println!("{} {}", tally.no_rule(), tally.refused_without_rule());
/// ```
///
/// Its counts can be kept and taken up again. Any numbers are the counts of a tally.
///
/// ```
/// use partyid::{TALLY_COUNTS, Tally};
///
/// let mut tally = Tally::new();
/// tally.feed("0088 34 17");
/// let kept: [u32; TALLY_COUNTS] = tally.into();
///
/// let mut tally = Tally::from(kept);
/// tally.feed("0088 34 71");
/// assert_eq!(tally.total(), 2);
/// ```
#[derive(Clone, Debug, PartialEq, Eq, Hash)]
pub struct Tally {
    counts: [u32; TALLY_COUNTS],
}

/// What a tally has counted of one rule.
#[derive(Clone, Copy, Debug, PartialEq, Eq, Hash)]
pub struct RuleCounts {
    /// The published number of the rule.
    pub rule: u32,
    /// How many lines it accepted.
    pub accepted: u32,
    /// How many lines it refused.
    pub refused: u32,
    /// How many lines it let through unread.
    pub unread: u32,
}

impl Tally {
    /// A fresh tally.
    pub const fn new() -> Self {
        Tally {
            counts: [0; TALLY_COUNTS],
        }
    }

    /// The answer to one line, without its newline, as [`answer_line`](crate::answer_line) gives it; and the line is counted.
    pub fn feed(&mut self, line: impl AsRef<[u8]>) -> Answer {
        Answer::of_library(raw::tally_line(line.as_ref(), &mut self.counts))
    }

    /// The answers to the lines of a text, as [`answer_lines`](crate::answer_lines) gives them. A line is counted when its answer is taken.
    pub fn feed_lines<'a, T: AsRef<[u8]> + ?Sized>(&'a mut self, text: &'a T) -> TallyLines<'a> {
        TallyLines {
            before: self.counts,
            counts: &mut self.counts,
            asked: &[],
            rest: text.as_ref(),
            piece: Piece::empty(),
        }
    }

    /// How many lines were answered with this rule and this verdict. Rule 0 is no rule, which has [`Verdict::NoRule`] and
    /// [`Verdict::Refused`]. `None` for a rule and a verdict that no line has.
    pub fn count(&self, rule: u32, verdict: Verdict) -> Option<u32> {
        match (rule, verdict) {
            (0, Verdict::NoRule) => Some(self.no_rule()),
            (0, Verdict::Refused) => Some(self.refused_without_rule()),
            _ => self.rules().find(|row| row.rule == rule)?.count(verdict),
        }
    }

    /// What was counted of each rule, in the order of their numbers.
    pub fn rules(&self) -> impl ExactSizeIterator<Item = RuleCounts> {
        RULES
            .iter()
            .zip(self.counts.chunks_exact(VERDICTS))
            .map(|(&rule, row)| RuleCounts {
                rule,
                accepted: row[0],
                refused: row[1],
                unread: row[2],
            })
    }

    /// How many lines had a field that no rule reads.
    pub const fn no_rule(&self) -> u32 {
        self.counts[NO_RULE]
    }

    /// How many lines were refused before a rule was chosen, with [`Reason::Term`](crate::Reason::Term) or
    /// [`Reason::Line`](crate::Reason::Line).
    pub const fn refused_without_rule(&self) -> u32 {
        self.counts[REFUSED_WITHOUT_RULE]
    }

    /// The sum of the counts: how many lines were counted.
    pub fn total(&self) -> u64 {
        self.counts.iter().map(|&count| u64::from(count)).sum()
    }

    /// The counts: three of each rule (accepted, refused, let through unread), then the two others.
    pub const fn counts(&self) -> &[u32; TALLY_COUNTS] {
        &self.counts
    }
}

impl RuleCounts {
    /// How many lines were answered with this verdict. With a rule, no line has [`Verdict::NoRule`].
    pub const fn count(&self, verdict: Verdict) -> Option<u32> {
        match verdict {
            Verdict::NoRule => None,
            Verdict::Accepted => Some(self.accepted),
            Verdict::Refused => Some(self.refused),
            Verdict::Unread => Some(self.unread),
        }
    }
}

impl Default for Tally {
    fn default() -> Self {
        Tally::new()
    }
}

impl From<[u32; TALLY_COUNTS]> for Tally {
    fn from(counts: [u32; TALLY_COUNTS]) -> Self {
        Tally { counts }
    }
}

impl From<Tally> for [u32; TALLY_COUNTS] {
    fn from(tally: Tally) -> Self {
        tally.counts
    }
}

/// The answers to the lines of a text, each line counted when its answer is taken: what [`Tally::feed_lines`] gives.
#[must_use = "a line is counted when its answer is taken"]
pub struct TallyLines<'a> {
    counts: &'a mut [u32; TALLY_COUNTS],
    // the lines of the piece, and the counts before them
    asked: &'a [u8],
    before: [u32; TALLY_COUNTS],
    rest: &'a [u8],
    piece: Piece,
}

impl Iterator for TallyLines<'_> {
    type Item = Answer;

    fn next(&mut self) -> Option<Answer> {
        if self.piece.left() == 0 && !self.rest.is_empty() {
            self.before = *self.counts;
            let used = self.piece.fill(self.rest, |text, out| {
                raw::tally_lines(text, self.counts, out)
            });
            (self.asked, self.rest) = self.rest.split_at(used);
        }
        self.piece.take()
    }
}

/// The library counts all lines of a piece. Where some answers of the last are not taken, it is asked again, for those that were taken.
impl Drop for TallyLines<'_> {
    fn drop(&mut self) {
        if self.piece.left() > 0 {
            *self.counts = self.before;
            raw::tally_lines(self.asked, self.counts, self.piece.taken());
        }
    }
}

impl FusedIterator for TallyLines<'_> {}

impl fmt::Debug for TallyLines<'_> {
    fn fmt(&self, f: &mut fmt::Formatter<'_>) -> fmt::Result {
        self.piece.debug("TallyLines", self.rest, f)
    }
}
