//! The answer of a check.

use crate::raw;
use crate::{Reason, Severity, Verdict};
use core::fmt;

/// The answer of a check.
///
/// ```
/// use partyid::check;
///
/// let answer = check("0088", 34, "71");
/// assert_eq!(answer.numbers(), [2, 40, 1, 4]);
/// assert_eq!(
///     answer.to_string(),
///     "refused by rule 40 (severity fatal): the form is met and the check figure is wrong"
/// );
/// assert_eq!(check("0088", 34, "17").to_string(), "accepted by rule 40");
/// assert_eq!(check("0060", 34, "x").to_string(), "no rule");
/// ```
#[derive(Clone, Copy, Debug, PartialEq, Eq, Hash)]
pub struct Answer {
    /// What was decided.
    pub verdict: Verdict,
    /// The published number of the rule (561 and 562 for R056-1 and R056-2), 0 where there is none.
    pub rule: u32,
    /// How grave a refusal by this rule is.
    pub severity: Severity,
    /// Why it is refused, if it is.
    pub reason: Reason,
}

impl Answer {
    /// The four numbers, as the line program writes them: verdict, rule, severity, reason.
    pub const fn numbers(self) -> [u32; 4] {
        [
            self.verdict.number(),
            self.rule,
            self.severity.number(),
            self.reason.number(),
        ]
    }

    pub(crate) fn of_library(answer: raw::Answer) -> Self {
        Answer {
            verdict: Verdict::of_library(answer.verdict),
            rule: answer.rule,
            severity: Severity::of_library(answer.severity),
            reason: Reason::of_library(answer.reason),
        }
    }
}

/// In words. How grave a refusal would be is told of refusals alone.
impl fmt::Display for Answer {
    fn fmt(&self, f: &mut fmt::Formatter<'_>) -> fmt::Result {
        write!(f, "{}", self.verdict)?;
        if self.rule != 0 {
            write!(f, " by rule {}", self.rule)?;
        }
        if self.verdict != Verdict::Refused {
            return Ok(());
        }
        if self.severity != Severity::NoSeverity {
            write!(f, " (severity {})", self.severity)?;
        }
        write!(f, ": {}", self.reason)
    }
}
