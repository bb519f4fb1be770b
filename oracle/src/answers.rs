//! The numbers of an answer, the kinds of answer that are made of them, and what can come of a check.

use crate::functions::{Found, Input};
use crate::library::{AREA, Answer};

pub const LONG: u32 = 1;
pub const UTF8: u32 = 2;
pub const FORM: u32 = 3;
pub const CHECK: u32 = 4;
pub const ZERO: u32 = 5;
pub const NO_FIGURE: u32 = 6;
pub const SCHEME: u32 = 7;
pub const ROOM: u32 = 8;
pub const GOOD: u32 = 9;
pub const TERM: u32 = 10;
pub const LINE: u32 = 11;
pub const FULL: u32 = 12;

/// The answer where no rule reads a field.
pub const NO_RULE: Answer = answer(0, 0, 0, 0);

pub const fn accepted(rule: u32, severity: u32) -> Answer {
    answer(1, rule, severity, 0)
}

pub const fn refused(rule: u32, severity: u32, reason: u32) -> Answer {
    answer(2, rule, severity, reason)
}

pub const fn unread(rule: u32, severity: u32) -> Answer {
    answer(3, rule, severity, 0)
}

const fn answer(verdict: u32, rule: u32, severity: u32, reason: u32) -> Answer {
    Answer {
        verdict,
        rule,
        severity,
        reason,
    }
}

/// What can come of a line; FULL comes of a tally.
pub const OF_A_LINE: usize = 10;

/// What the original can read of a content; the reason where it can't.
pub fn readable(content: &[u8]) -> Result<&str, u32> {
    if AREA < content.len() {
        return Err(LONG);
    }
    str::from_utf8(content).map_err(|_| UTF8)
}

impl Found for Answer {
    #[rustfmt::skip]
    const OUTCOMES: &[&str] = &[
        "no rule", "accepted", "let through", "LONG", "UTF8", "FORM", "CHECK", "ZERO", "TERM", "LINE", "FULL",
    ];

    fn outcome(&self, _: Input<'_>) -> usize {
        match (self.verdict, self.reason) {
            (0, _) => 0,
            (1, _) => 1,
            (3, _) => 2,
            (_, TERM) => 8,
            (_, LINE) => 9,
            (_, FULL) => 10,
            (_, reason) => 2 + reason as usize,
        }
    }

    fn written(&self) -> String {
        let a = self;
        format!(" {} {} {} {}", a.verdict, a.rule, a.severity, a.reason)
    }
}
