//! IBAN, creditor identifier, strict GLN and the withdrawn codes.

use oracle::accounts::{Creditor, EasValue, Iban, Withdrawn};
use oracle::functions::Function;
use oracle::original::WITHDRAWN;
use oracle::random::Random;

use crate::draw;
use crate::example::{AT_THE_LIMIT, Example, PAST_THE_LIMIT};
use crate::part::Part;

/// How many examples of each outcome.
const ACCOUNT: [(&str, usize); 6] = [
    ("accepted", 130),
    ("FORM", 130),
    ("CHECK", 130),
    ("UTF8", 20),
    ("LONG", 5),
    (AT_THE_LIMIT, 2),
];
const STRICT: [(&str, usize); 8] = [
    ("accepted", 80),
    ("FORM", 100),
    ("CHECK", 60),
    ("UTF8", 20),
    ("LONG", 5),
    ("no rule", 40),
    (AT_THE_LIMIT, 2),
    (PAST_THE_LIMIT, 1),
];
const CODES: [(&str, usize); 3] = [
    ("not withdrawn", 80),
    ("no successor", 1), // there is one such code
    ("successor", 11),
];

pub fn parts() -> Vec<Part> {
    vec![
        Part::of::<Iban>(0, &ACCOUNT, account::<Iban>),
        Part::of::<Creditor>(0, &ACCOUNT, account::<Creditor>),
        Part::of::<EasValue>(0, &STRICT, gln),
        Part::of::<Withdrawn>(0, &CODES, withdrawn),
    ]
}

fn account<F: Function>(r: &mut Random, good: &[Vec<u8>]) -> Example {
    Example::of::<F>(b"", 0, draw::content(r, good))
}

fn gln(r: &mut Random, good: &[Vec<u8>]) -> Example {
    let scheme = if r.one_in(4) {
        *r.among(&["", "008", "00888", "0089", "0192", "8800", "é088"])
    } else {
        "0088"
    };
    Example::of::<EasValue>(scheme.as_bytes(), 0, draw::content(r, good))
}

/// A withdrawn code, or one damaged, or a number beside them.
fn withdrawn(r: &mut Random, _: &[Vec<u8>]) -> Example {
    let mut content = match r.below(3) {
        0 => format!("99{:02}", r.below(100)).into_bytes(),
        1 => format!("{:04}", r.below(300)).into_bytes(),
        _ => r.among(WITHDRAWN).code.as_bytes().to_vec(),
    };
    if r.one_in(3) {
        draw::damage(r, &mut content);
    }
    Example::of::<Withdrawn>(b"", 0, content)
}
