//! Why something is refused.

numbered! {
    /// Why something is refused. As an error it is never [`Reason::NoReason`]. Reasons are ordered by their numbers.
    ///
    /// ```
    /// use partyid::{Reason, check};
    /// use std::collections::BTreeMap;
    ///
    /// let mut counts = BTreeMap::new();
    /// for content in ["17", "71", "x", "72"] {
    ///     *counts.entry(check("0088", 34, content).reason).or_insert(0) += 1;
    /// }
    /// assert!(counts.into_iter().eq([(Reason::NoReason, 1), (Reason::Form, 1), (Reason::Check, 2)]));
    /// ```
    #[derive(PartialOrd, Ord)]
    Reason called "reason" {
        /// Not refused, or the work is done.
        NoReason = 0 "no reason",
        /// The content has more than 1,024 bytes, and a rule reads it.
        Long = 1 "the content is over 1,024 bytes",
        /// The content is not well-formed UTF-8, and a rule reads it.
        Utf8 = 2 "the content is not well-formed UTF-8",
        /// The form is not met.
        Form = 3 "the form is not met",
        /// The form is met and the check figure is wrong.
        Check = 4 "the form is met and the check figure is wrong",
        /// 0192: nine zeros, or eight to complete.
        Zero = 5 "all digits are zero",
        /// 0192: no figure completes the body.
        NoFigure = 6 "no check figure completes the body",
        /// Only 0088, 0192, 0208, 0007 and 0151 are completed and listed.
        Scheme = 7 "only 0088, 0192, 0208, 0007 and 0151 can be completed or listed",
        /// The output area is too short. The areas of this crate never are.
        Room = 8 "the output area is too short",
        /// The number is accepted: there is nothing to correct.
        Good = 9 "the number is accepted, so there is nothing to correct",
        /// The term number is none that a rule reads.
        Term = 10 "the term number is none that a rule reads",
        /// A line whose head is malformed.
        Line = 11 "the head of the line is malformed",
        /// The tally can count no further line.
        Full = 12 "the tally is full",
    }
}

impl core::error::Error for Reason {}

impl Reason {
    /// What a number of the library says of a piece of work: done, or refused for a reason.
    pub(crate) fn settle(number: u32) -> Result<(), Reason> {
        match Reason::of_library(number) {
            Reason::NoReason => Ok(()),
            reason => Err(reason),
        }
    }
}
