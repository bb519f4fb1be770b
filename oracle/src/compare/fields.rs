//! The functions that read a scheme, at any field.

use oracle::accounts::{EasValue, Withdrawn};
use oracle::fields;
use oracle::functions::Input;
use oracle::known::made_for;
use oracle::random::Random;
use oracle::rules::Check;

use super::report::Report;

fn compare(report: &mut Report, scheme: &[u8], term: u32, content: &[u8]) {
    let input = Input {
        scheme,
        number: u64::from(term),
        ..Input::of(content)
    };
    report.compare::<Check>(input);
    report.compare::<EasValue>(Input { number: 0, ..input });
    report.compare::<Withdrawn>(Input::of(scheme));
}

/// A random field, with a content or one that is made for its scheme.
pub fn random(r: &mut Random, report: &mut Report, content: &[u8]) {
    let mut scheme = Vec::new();
    fields::scheme(r, &mut scheme);
    let term = fields::term(r);
    if r.one_in(2) {
        return compare(report, &scheme, term, content);
    }
    let made = made_for(r, &scheme);
    compare(report, &scheme, term, &made);
}

/// Contents of every form, with every scheme and every term.
pub fn every(contents: &[Vec<u8>], report: &mut Report) {
    for content in contents {
        for scheme in fields::schemes() {
            for term in fields::terms() {
                compare(report, &scheme, term, content);
            }
        }
    }
}

/// Codes at a term that uses them, with a content that no rule accepts.
pub fn codes(codes: &[Vec<u8>], report: &mut Report) {
    for code in codes {
        compare(report, code, 34, b"IT");
    }
}
