//! Every function that reads a content, on a content; and every code point at places where it matters which it is.

use std::ops::Range;

use oracle::accounts::{Creditor, EasValue, Iban, Withdrawn};
use oracle::functions::Input;
use oracle::known::KNOWN;
use oracle::points::{WHITE, spelled};
use oracle::rules::ByRule;
use oracle::text::{Decode, IsWhite, NormalizeSpace, Strip};

use super::report::Report;

/// The longest content that is decoded at every place in any case.
const SHORT: usize = 64;

pub fn compare(report: &mut Report, content: &[u8], every_place: bool) {
    text(report, content, every_place);
    KNOWN
        .iter()
        .for_each(|known| by_rule(report, known.scheme, known.term, content));
    let input = Input::of(content);
    report.compare::<Iban>(input);
    report.compare::<Creditor>(input);
    report.compare::<Withdrawn>(input);
    let scheme = b"0088";
    report.compare::<EasValue>(Input { scheme, ..input });
}

fn by_rule(report: &mut Report, scheme: &str, term: u32, content: &[u8]) {
    report.compare::<ByRule>(Input {
        scheme: scheme.as_bytes(),
        number: u64::from(term),
        ..Input::of(content)
    });
}

/// The functions of the text layer.
fn text(report: &mut Report, content: &[u8], every_place: bool) {
    decode(report, content, every_place);
    report.compare::<NormalizeSpace>(Input::of(content));
    report.compare::<Strip>(Input::of(content));
}

/// Decodes at every place, or of a long content at its first and last places; at the end and past it.
fn decode(report: &mut Report, content: &[u8], every_place: bool) {
    let end = content.len();
    let first = if end <= SHORT || every_place {
        0..end
    } else {
        0..SHORT / 2
    };
    let last = first.end.max(end.saturating_sub(SHORT / 2))..end + 5;
    for at in first.chain(last).chain([usize::MAX - 1, usize::MAX]) {
        report.compare::<Decode>(Input {
            number: at as u64,
            ..Input::of(content)
        });
    }
}

/// Every number to far past the last code point, and those whose low bits are a white point.
pub fn numbers() -> Vec<u32> {
    let high = |c: char| (21..32).map(move |bit| u32::from(c) | 1 << bit);
    (0..=0x20_0000)
        .chain(WHITE.into_iter().flat_map(high))
        .chain([u32::MAX])
        .collect()
}

pub fn white_points(numbers: &[u32], report: &mut Report) {
    for &c in numbers {
        report.compare::<IsWhite>(Input {
            number: u64::from(c),
            ..Input::default()
        });
    }
}

/// To past the last code point.
pub const POINTS: u64 = 0x14_0000;

pub fn every_point(range: Range<u64>, report: &mut Report) {
    for c in range {
        let point = spelled(c as u32);
        let within = |before: &[u8], behind: &[u8]| [before, &point, behind].concat();
        text(report, &within(b"a", b"b"), true);
        by_rule(report, "0088", 34, &within(b"", b"17"));
        by_rule(report, "0210", 34, &within(b"ABCDEF12G34", b"yz5H"));
        by_rule(report, "0210", 34, &within(b"ABCDEF1", b"G34xyz5H"));
        by_rule(report, "0096", 34, &within(b"123456789", b""));
        report.compare::<Iban>(Input::of(&within(b"aa7", b"50")));
        report.compare::<Creditor>(Input::of(&within(b"AB12CDE", b"F")));
    }
}
