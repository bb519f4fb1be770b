//! The field check, rule by rule.

use oracle::known::{BY_NUMBER, KNOWN, Known, SCHEMED};
use oracle::random::Random;
use oracle::rules::{ByRule, Check};

use crate::draw;
use crate::example::{AT_THE_LIMIT, Example, PAST_THE_LIMIT};
use crate::part::Part;

/// Schemes that no rule knows. A scheme holds no blank, which would end it.
const STRANGE_SCHEMES: [&str; 14] = [
    "", "0", "008", "00888", "0089", "0060", "0002", "9901", "9906", "9999", "DUNS", "0x58",
    "é088", "0211\0",
];

/// Numbers of no term: beside one, with one in their low bytes or first digits, and the last there is.
const STRANGE_TERMS: [u32; 18] = [
    0, 1, 2, 3, 28, 32, 33, 35, 45, 50, 59, 62, 64, 99, 285, 340, 65_565, 4294967295,
];

pub fn parts() -> Vec<Part> {
    let unread = |outcome| [(outcome, 90), (AT_THE_LIMIT, 1), (PAST_THE_LIMIT, 1)];
    let mut parts: Vec<Part> = BY_NUMBER.iter().copied().map(rule).collect();
    parts.extend([
        Part::new('c', "no rule", &unread("no rule"), no_rule),
        Part::new('c', "no term", &unread("TERM"), no_term),
    ]);
    parts
}

/// The scheme of a rule; one where it looks at none.
pub fn scheme(r: &mut Random) -> &'static str {
    match r.among(&BY_NUMBER).scheme {
        "" => "0088",
        scheme => scheme,
    }
}

fn rule(known: &'static Known) -> Part {
    let counts = [
        ("accepted", 36),
        ("FORM", 36),
        ("CHECK", 36),
        ("let through", 24),
        ("ZERO", 8),
        ("UTF8", 8),
        ("LONG", 1),
        (AT_THE_LIMIT, if known.number() == 40 { 4 } else { 1 }), // rule 40 alone reads so many digits
    ];
    let place = KNOWN.iter().position(|other| std::ptr::eq(other, known));
    let place = place.expect("a known rule");
    Part::of::<ByRule>(place, &counts, move |r, good| {
        let scheme = match known.scheme {
            "" => *r.among(&STRANGE_SCHEMES),
            scheme => scheme,
        };
        let term = u64::from(*r.among(known.terms));
        Example::of::<ByRule>(scheme.as_bytes(), term, draw::content(r, good))
    })
}

fn check(scheme: &str, term: u32, content: Vec<u8>) -> Example {
    Example::of::<Check>(scheme.as_bytes(), u64::from(term), content)
}

fn no_rule(r: &mut Random, _: &[Vec<u8>]) -> Example {
    let content = draw::any(r);
    if r.one_in(4) {
        return check("9907", *r.among(&[29, 30, 46, 47, 60, 61]), content);
    }
    let scheme = *r.among(&STRANGE_SCHEMES);
    check(scheme, *r.among(SCHEMED), content)
}

fn no_term(r: &mut Random, _: &[Vec<u8>]) -> Example {
    let scheme = scheme(r);
    check(scheme, *r.among(&STRANGE_TERMS), draw::any(r))
}
