//! Lines, which are fields with a head, and texts of many lines.

use oracle::known::BY_NUMBER;
use oracle::lines::{AnswerLine, AnswerLines, HEAD};
use oracle::random::Random;

use crate::example::{AT_THE_LIMIT, Example, PAST_THE_LIMIT};
use crate::part::Part;
use crate::{draw, fields};

/// How many examples of each outcome.
const LINE: [(&str, usize); 12] = [
    ("accepted", 90),
    ("FORM", 70),
    ("CHECK", 40),
    ("ZERO", 5),
    ("UTF8", 15),
    ("LONG", 5),
    ("let through", 20),
    ("no rule", 40),
    ("TERM", 30),
    ("LINE", 90),
    (AT_THE_LIMIT, 2),
    (PAST_THE_LIMIT, 2),
];
const LINES: [(&str, usize); 5] = [
    ("no line", 5),
    ("no room", 20),
    ("some lines", 80),
    ("all lines", 80),
    (PAST_THE_LIMIT, 3),
];

pub fn parts() -> Result<Vec<Part>, String> {
    let line = Part::of::<AnswerLine>(0, &LINE, line);
    let lines = line.examples(0)?.iter().map(Example::whole).collect();
    Ok(vec![line, batch(lines)])
}

fn line(r: &mut Random, good: &[Vec<u8>]) -> Example {
    let mut line = line_head(r);
    let head = line.len();
    if HEAD <= head {
        line.extend(draw::content(r, good));
    }
    Example::of::<AnswerLine>(b"", 0, line).behind(head)
}

/// Scheme, term and the blanks behind them, as they should be or damaged or cut short.
fn line_head(r: &mut Random) -> Vec<u8> {
    let (scheme, terms) = (fields::scheme(r), r.among(&BY_NUMBER).terms);
    let mut head = format!("{scheme} {} ", r.among(terms)).into_bytes();
    match r.below(4) {
        0 => draw::damage(r, &mut head),
        1 if r.one_in(4) => head.truncate(r.below(HEAD)),
        _ => {}
    }
    head
}

/// Texts of the given lines, with room for more or for fewer numbers than their answers are.
fn batch(all: Vec<Vec<u8>>) -> Part {
    let whole = |name| match name {
        "all, ended" | "all, unended" => "all lines",
        name => name,
    };
    Part::new('b', "answer_lines", &LINES, move |r, _| {
        let some: Vec<Vec<u8>> = (0..r.below(5)).map(|_| r.among(&all).clone()).collect();
        let mut text = some.join(&b'\n');
        if r.one_in(2) {
            text.push(b'\n');
        }
        Example::of::<AnswerLines>(b"", r.below(21) as u64, text).named(whole)
    })
    .up_to(200)
}
