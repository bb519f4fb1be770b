//! Many lines at once.

use crate::Answer;
use crate::piece::Piece;
use crate::raw;
use core::fmt;
use core::iter::FusedIterator;

/// The answer to one line, without its newline: the four bytes of the scheme, a space, the two digits of the term, a space, the content.
///
/// ```
/// use partyid::{Reason, Verdict, answer_line};
///
/// assert_eq!(answer_line("0088 34 17").verdict, Verdict::Accepted);
/// assert_eq!(answer_line("0088 17").reason, Reason::Line);
/// ```
pub fn answer_line(line: impl AsRef<[u8]>) -> Answer {
    Answer::of_library(raw::answer_line(line.as_ref()))
}

/// The answers to the lines of a text, in their order. The last line needs no newline, but a byte.
///
/// ```
/// use partyid::answer_lines;
///
/// let text = "0088 34 71\n0088 34 17\n0060 34 x\n";
/// let numbers: Vec<_> = answer_lines(text).map(|answer| answer.numbers()).collect();
/// assert_eq!(numbers, [[2, 40, 1, 4], [1, 40, 1, 0], [0, 0, 0, 0]]);
/// ```
pub fn answer_lines<T: AsRef<[u8]> + ?Sized>(text: &T) -> AnswerLines<'_> {
    AnswerLines {
        rest: text.as_ref(),
        piece: Piece::empty(),
    }
}

/// The answers to the lines of a text: what [`answer_lines`] gives.
#[derive(Clone)]
pub struct AnswerLines<'a> {
    rest: &'a [u8],
    piece: Piece,
}

impl Iterator for AnswerLines<'_> {
    type Item = Answer;

    fn next(&mut self) -> Option<Answer> {
        if self.piece.left() == 0 && !self.rest.is_empty() {
            let used = self.piece.fill(self.rest, raw::answer_lines);
            self.rest = &self.rest[used..];
        }
        self.piece.take()
    }
}

impl FusedIterator for AnswerLines<'_> {}

impl fmt::Debug for AnswerLines<'_> {
    fn fmt(&self, f: &mut fmt::Formatter<'_>) -> fmt::Result {
        self.piece.debug("AnswerLines", self.rest, f)
    }
}
