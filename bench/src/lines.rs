//! One line, and many lines at once, answered and also counted, beside the original's predicates.

use std::hint::black_box;

use oracle::library::{self, Answer, Batch, TALLY_COUNTS};
use oracle::lines;

use crate::case::Case;
use crate::predicates::{answer_line, plain, plain_row};
use crate::row::Function;
use crate::tally::Tally;

static ANSWER_LINE: Function = Function {
    name: "answer_line",
    lean: "",
    plain: "the line is taken apart, then as for `check`",
};

static ANSWER_LINES: Function = Function {
    name: "answer_lines",
    lean: "",
    plain: "the same in a loop over the lines, with four numbers written for each",
};

static TALLY_LINE: Function = Function {
    name: "tally_line",
    lean: "",
    plain: "as for `answer_line`, counted in an array by rule and verdict, with the number of lines kept beside it",
};

static TALLY_LINES: Function = Function {
    name: "tally_lines",
    lean: "",
    plain: "the same in a loop over the lines, with four numbers written for each",
};

type Line = (&'static str, &'static str);

const LINES: [Line; 6] = [
    ("40: 13 digits", "0088 34 4012345000009"),
    ("41: wrong figure", "0192 30 123456784"),
    ("45: codice fiscale", "0210 49 RSSMRA85T10A562S"),
    ("562: another country, let through", "0192 31 DE123456789"),
    ("no rule", "0060 34 123456789"),
    ("malformed head", "0088 340 4012345000009"),
];

/// How many lines are answered in one call.
const MANY: usize = 2000;

pub fn cases(input: &[u8]) -> Vec<Case> {
    let many: Vec<&[u8]> = lines::lines(input).take(MANY).collect();
    let many = many.concat().leak();
    assert_counted(many);
    let mut cases: Vec<Case> = LINES
        .into_iter()
        .map(|line| one(&ANSWER_LINE, line, library::answer_line, answer_line))
        .collect();
    cases.push(all(&ANSWER_LINES, many, library::answer_lines, answer_line));
    cases.extend(LINES.map(|line| {
        let (mut counts, mut tally) = tallies();
        let ours = move |line: &[u8]| library::tally_line(line, &mut counts);
        one(&TALLY_LINE, line, ours, move |line| tally.answer_line(line))
    }));
    let (mut counts, mut tally) = tallies();
    let ours = move |text: &[u8], out: &mut [u32]| library::tally_lines(text, &mut counts, out);
    cases.push(all(&TALLY_LINES, many, ours, move |line| {
        tally.answer_line(line)
    }));
    cases
}

fn one(
    function: &'static Function,
    (of, line): Line,
    mut library: impl FnMut(&[u8]) -> Answer + 'static,
    mut rust: impl FnMut(&[u8]) -> Answer + 'static,
) -> Case {
    let line = line.as_bytes();
    assert_eq!(plain(library(line)), rust(line));
    Case::new(function, of, move || library(black_box(line))).plain(move || rust(black_box(line)))
}

fn all(
    function: &'static Function,
    text: &'static [u8],
    mut library: impl FnMut(&[u8], &mut [u32]) -> Batch + 'static,
    mut rust: impl FnMut(&[u8]) -> Answer + 'static,
) -> Case {
    let (mut ours, mut theirs) = (vec![0; 4 * MANY], vec![0; 4 * MANY]);
    let batch = library(text, &mut ours);
    assert_eq!((batch.count, batch.used), (MANY, text.len()));
    each_line(text, &mut theirs, &mut rust);
    let answers = ours.chunks(4).map(|n| plain(answer_of(n)));
    assert!(answers.eq(theirs.chunks(4).map(answer_of)));
    let of = format!("a line of {MANY}");
    Case::new(function, of, move || {
        library(black_box(text), black_box(&mut ours))
    })
    .plain(move || each_line(black_box(text), black_box(&mut theirs), &mut rust))
    .answers(MANY)
}

/// Four numbers for each line.
fn each_line(text: &[u8], out: &mut [u32], mut answer: impl FnMut(&[u8]) -> Answer) {
    for (line, out) in lines::lines(text).zip(out.chunks_exact_mut(4)) {
        let a = answer(line.strip_suffix(b"\n").unwrap_or(line));
        out.copy_from_slice(&[a.verdict, a.rule, a.severity, a.reason]);
    }
}

/// The library's and the Rust one, fresh.
fn tallies() -> ([u32; TALLY_COUNTS], Tally) {
    ([0; TALLY_COUNTS], Tally::new())
}

/// Stops the program unless both sides count the lines in the same way. The library's counts have no rule's number before them.
fn assert_counted(text: &[u8]) {
    let (mut counts, mut tally) = tallies();
    let mut out = vec![0; 4 * MANY];
    library::tally_lines(text, &mut counts, &mut out);
    each_line(text, &mut out, |line| tally.answer_line(line));
    for (counts, row) in counts.chunks(3).zip(tally.rows()) {
        let number = &row[..row.len() - counts.len()];
        assert_eq!(plain_row([number, counts].concat()), row);
    }
}

pub fn answer_of(numbers: &[u32]) -> Answer {
    Answer {
        verdict: numbers[0],
        rule: numbers[1],
        severity: numbers[2],
        reason: numbers[3],
    }
}
