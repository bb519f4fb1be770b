//! One line, and the lines of a text: each line's answer is the field check of the original.

use crate::answers::{LINE, OF_A_LINE, refused};
use crate::functions::Part::{Content, Number};
use crate::functions::{Call, Found, Function, Input, Lent, Part, Rows, row};
use crate::library::{self, Answer, Batch};
use crate::rules;

/// The bytes of a line before its content.
pub const HEAD: usize = 8;

/// What is read of a content: one byte more than a rule may read.
pub const READ: usize = 1025;

/// The answer to a line, its newline left out: 4 scheme bytes, space, two digits of term, space, content.
pub fn answer_line(line: &[u8]) -> Answer {
    let Some((
        &[
            a,
            b,
            c,
            d,
            b' ',
            tens @ b'0'..=b'9',
            ones @ b'0'..=b'9',
            b' ',
        ],
        content,
    )) = line.split_first_chunk::<HEAD>()
    else {
        return refused(0, 0, LINE);
    };
    let term = u32::from(10 * (tens - b'0') + (ones - b'0'));
    rules::answer(&[a, b, c, d], term, &content[..content.len().min(READ)])
}

/// The answers to the lines of a text as four numbers each, for as many lines as there is room, and the bytes of these lines.
pub fn answer_lines(text: &[u8], room: usize) -> Answers {
    each_line(text, room, answer_line)
}

/// How many lines were answered, of how many bytes, and the numbers of the answers.
pub type Answers = (Batch, Vec<u32>);

pub fn each_line(text: &[u8], room: usize, mut answer: impl FnMut(&[u8]) -> Answer) -> Answers {
    let mut used = 0;
    let mut numbers = Vec::new();
    for line in lines(text).take(room / 4) {
        let a = answer(line.strip_suffix(b"\n").unwrap_or(line));
        numbers.extend([a.verdict, a.rule, a.severity, a.reason]);
        used += line.len();
    }
    let count = numbers.len() / 4;
    (Batch { count, used }, numbers)
}

/// The lines with their newlines; the last one may have none, and is then not empty.
pub fn lines(text: &[u8]) -> impl Iterator<Item = &[u8]> {
    text.split_inclusive(|&b| b == b'\n')
}

pub struct AnswerLine;

impl Function for AnswerLine {
    type Found = Answer;
    const PARTS: &[Part] = &[Content("line")];
    const LIBRARY: Call<Answer> = |i| library::answer_line(i.content);
    const ORIGINAL: Call<Answer> = |i| answer_line(i.content);
    const ROWS: Rows = || row("answer_line", &Answer::OUTCOMES[..OF_A_LINE]);
    const LETTER: char = 'a';
}

pub struct AnswerLines;

/// Both counts and every number of the area; and the numbers of as many calls as it takes to the end, each from where the one before it ended.
#[derive(Debug, PartialEq)]
pub struct Lines {
    pub first: Lent<Batch, u32>,
    pub all: Vec<u32>,
}

impl Lines {
    /// What the original answers with so much room, and with the room for all.
    pub fn answered(room: usize, (batch, numbers): Answers, (_, all): Answers) -> Self {
        let first = Lent::filled(batch, &numbers, FILL, room);
        Self { first, all }
    }
}

/// The room for all lines; where no line fits, none ever does.
pub fn room_for_all(room: usize) -> usize {
    if room < 4 { 0 } else { usize::MAX }
}

impl Function for AnswerLines {
    type Found = Lines;
    const PARTS: &[Part] = &[Number("room"), Content("text")];
    const LIBRARY: Call<Lines> = |i| {
        let room = i.number as usize;
        Lines {
            first: called(i.content, room, library::answer_lines),
            all: by_parts(i.content, room, library::answer_lines),
        }
    };
    const ORIGINAL: Call<Lines> = |i| {
        let room = i.number as usize;
        let answered = |room| answer_lines(i.content, room);
        Lines::answered(room, answered(room), answered(room_for_all(room)))
    };
    const ROWS: Rows = || row("answer_lines", Lines::OUTCOMES);
    const LETTER: char = 'b';
}

/// What an area is filled with before a call: a number that no answer has.
const FILL: u32 = 999;

pub fn called(
    text: &[u8],
    room: usize,
    mut library: impl FnMut(&[u8], &mut [u32]) -> Batch,
) -> Lent<Batch, u32> {
    let mut area = vec![FILL; room];
    let head = library(text, &mut area);
    Lent { head, area }
}

/// A call that takes nothing ends it.
pub fn by_parts(
    text: &[u8],
    room: usize,
    mut library: impl FnMut(&[u8], &mut [u32]) -> Batch,
) -> Vec<u32> {
    let mut numbers = Vec::new();
    let mut at = 0;
    while at < text.len() {
        let Lent { head, area } = called(&text[at..], room, &mut library);
        numbers.extend(area.iter().take(4 * head.count));
        if head.used == 0 {
            break;
        }
        at += head.used;
    }
    numbers
}

impl Found for Lines {
    #[rustfmt::skip]
    const OUTCOMES: &[&str] = &["no line", "no room", "some lines", "all, ended", "all, unended"];

    fn outcome(&self, input: Input<'_>) -> usize {
        let Batch { count, used } = self.first.head;
        match input.content.last() {
            None => 0,
            Some(_) if count == 0 => 1,
            Some(_) if used < input.content.len() => 2,
            Some(b'\n') => 3,
            Some(_) => 4,
        }
    }

    fn written(&self) -> String {
        let Batch { count, used } = self.first.head;
        let area = self.first.area.iter().map(|n| format!(" {n}"));
        format!(" {count} {used}{}", area.collect::<String>())
    }
}
