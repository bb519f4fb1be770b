//! The field check and the answer to a line as a Rust caller of the original would write them: over its predicates.
//!
//! A predicate only says yes or no: a refusal has the reason FORM whether form or check figure is wrong, and what a rule lets
//! through unread is accepted. The rest of the answer is as the rules have it.

use oracle::answers::{FORM, LINE, NO_RULE, TERM, accepted, readable, refused};
use oracle::library::Answer;
use oracle::original::{Predicates, open};

/// The answer to a field.
pub fn check(scheme: &[u8], term: u32, content: &[u8]) -> Answer {
    let rule = match term {
        29 | 30 | 34 | 46 | 47 | 49 | 60 | 61 => rule_of(scheme, term),
        31 | 48 | 63 => Some((562, 2)),
        _ => return refused(0, 0, TERM),
    };
    let Some((rule, severity)) = rule else {
        return NO_RULE;
    };
    match readable(content) {
        Err(reason) => refused(rule, severity, reason),
        Ok(text) if accepts(rule, text) => accepted(rule, severity),
        Ok(_) => refused(rule, severity, FORM),
    }
}

/// The answer to a line, its newline left out.
pub fn answer_line(line: &[u8]) -> Answer {
    match line {
        &[
            a,
            b,
            c,
            d,
            b' ',
            tens @ b'0'..=b'9',
            ones @ b'0'..=b'9',
            b' ',
            ref content @ ..,
        ] => {
            let term = u32::from(10 * (tens - b'0') + (ones - b'0'));
            check(&[a, b, c, d], term, content)
        }
        _ => refused(0, 0, LINE),
    }
}

/// The library's answer as far as the predicates go.
pub fn plain(answer: Answer) -> Answer {
    match (answer.verdict, answer.reason) {
        (3, _) => accepted(answer.rule, answer.severity),
        (2, 4 | 5) => refused(answer.rule, answer.severity, FORM),
        _ => answer,
    }
}

/// The counts of a rule as far as the predicates go, behind its number.
pub fn plain_row(mut row: Vec<u32>) -> Vec<u32> {
    if let [_, accepted, _, unread] = &mut row[..] {
        *accepted += std::mem::take(unread);
    }
    row
}

/// The number and the severity of the rule for a scheme.
fn rule_of(scheme: &[u8], term: u32) -> Option<(u32, u32)> {
    Some(match scheme {
        b"0088" => (40, 1),
        b"0192" => (41, 1),
        b"0184" => (42, 1),
        b"0208" => (43, 1),
        b"0201" => (44, 2),
        b"0210" => (45, 2),
        b"9907" if term == 34 || term == 49 => (46, 2),
        b"0211" => (47, 2),
        b"0007" => (49, 1),
        b"0151" => (50, 1),
        b"0096" => (52, 1),
        b"0198" => (53, 1),
        b"0106" => (54, 2),
        b"0190" => (55, 2),
        b"0217" => (57, 2),
        b"9944" => (561, 2),
        _ => return None,
    })
}

/// The predicate of the rule of that number. Where the number is known it is called directly, without a choice.
#[inline(always)]
pub fn accepts(rule: u32, content: &str) -> bool {
    match rule {
        40 => Predicates::COMMON_R040(content),
        41 => Predicates::COMMON_R041(content),
        42 => Predicates::COMMON_R042(content),
        43 => Predicates::COMMON_R043(content),
        44 => Predicates::COMMON_R044(content),
        45 => Predicates::COMMON_R045(content),
        46 => Predicates::COMMON_R046(content),
        47 => Predicates::COMMON_R047(content),
        49 => Predicates::COMMON_R049(content),
        50 => Predicates::COMMON_R050(content),
        52 => Predicates::COMMON_R052(content),
        53 => Predicates::COMMON_R053(content),
        54 => Predicates::COMMON_R054(content),
        55 => Predicates::COMMON_R055(content),
        57 => Predicates::COMMON_R057(content),
        561 => Predicates::COMMON_R056_1(content),
        562 => dutch_if_it_says_so(content),
        _ => unreachable!("no rule {rule}"),
    }
}

/// What the original's rule R056-2 tests of each VAT number.
fn dutch_if_it_says_so(content: &str) -> bool {
    !open::normalize_space(content).starts_with("NL") || Predicates::COMMON_R056_1(content)
}
