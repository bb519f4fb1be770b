//! Completing and listing by trying every candidate on the original's predicates.

use crate::answers::{FORM, GOOD, NO_FIGURE, ROOM, SCHEME, ZERO};
use crate::functions::Part::{Content, Number, Scheme};
use crate::functions::{Call, Found, Function, Input, Lent, Part, Row, Rows, escaped};
use crate::library::{self, Done};
use crate::original::{Predicates as P, open};
use crate::text;

/// A scheme of the five: its predicate, how many digits a body, a number and a figure have, and what can come of completing and of listing beside
/// the outcomes of each.
pub struct Five {
    pub scheme: &'static str,
    pub accepts: fn(&str) -> bool,
    pub body: (usize, usize),
    pub number: (usize, usize),
    pub figure: usize,
    also_completing: &'static [&'static str],
    also_listing: &'static [&'static str],
}

const NOTHING: &[&str] = &["nothing found"];

pub static FIVE: [Five; 5] = [
    five("0088", P::COMMON_R040, (1, 19), (1, 20), 1, &[]),
    Five {
        also_completing: &["ZERO", "NO_FIGURE"],
        ..five("0192", P::COMMON_R041, (8, 8), (9, 9), 1, NOTHING)
    },
    five("0208", P::COMMON_R043, (8, 8), (10, 10), 2, NOTHING),
    five("0007", P::COMMON_R049, (9, 9), (10, 10), 1, &[]),
    five("0151", P::COMMON_R050, (9, 9), (11, 11), 2, NOTHING),
];

const fn five(
    scheme: &'static str,
    accepts: fn(&str) -> bool,
    body: (usize, usize),
    number: (usize, usize),
    figure: usize,
    also_listing: &'static [&'static str],
) -> Five {
    Five {
        scheme,
        accepts,
        body,
        number,
        figure,
        also_completing: &[],
        also_listing,
    }
}

fn five_of(scheme: &[u8]) -> Option<&'static Five> {
    FIVE.iter().find(|five| five.scheme.as_bytes() == scheme)
}

/// What comes of completing a body with room for so many bytes, and what is written at the start of the area.
pub fn completed(scheme: &[u8], body: &[u8], room: usize) -> (Done, String) {
    let Some(five) = five_of(scheme) else {
        return undone(SCHEME);
    };
    let Some(body) = str::from_utf8(body).ok().filter(|s| fits(s, five.body)) else {
        return undone(FORM);
    };
    match figure(five, body) {
        None if body.bytes().all(|b| b == b'0') => undone(ZERO),
        None => undone(NO_FIGURE),
        Some(_) if room < 2 => undone(ROOM),
        Some(figure) => done(figure.len(), figure),
    }
}

/// What comes of listing the corrections of a content with room for so many bytes, and what is written at the start of the area.
pub fn listed(scheme: &[u8], content: &[u8], room: usize) -> (Done, String) {
    let Some(five) = five_of(scheme) else {
        return undone(SCHEME);
    };
    let (head, number) = text::normalized(content);
    match number.len() {
        _ if head.reason != 0 => undone(head.reason),
        _ if !fits(&number, five.number) => undone(FORM),
        _ if (five.accepts)(&number) => undone(GOOD),
        n if room < room_for(n) => undone(ROOM),
        _ => {
            let entries = entries(five, &number);
            done(entries.len(), entries.concat())
        }
    }
}

/// The bytes of an area for the corrections of n digits.
pub fn room_for(n: usize) -> usize {
    (2 * n - 1) * n
}

fn undone(reason: u32) -> (Done, String) {
    (Done { reason, count: 0 }, String::new())
}

fn done(count: usize, written: String) -> (Done, String) {
    (Done { reason: 0, count }, written)
}

fn fits(s: &str, (least, most): (usize, usize)) -> bool {
    (least..=most).contains(&s.len()) && open::all_digits(s)
}

/// The figure that completes a body; of the pairs of 0151, which stand in front, those from 11 on are tried.
fn figure(five: &Five, body: &str) -> Option<String> {
    let all = if five.figure == 1 { 0..10 } else { 0..100 };
    let mut figures = all.map(|n| format!("{n:0width$}", width = five.figure));
    if five.scheme == "0151" {
        figures.find(|f| "11" <= f.as_str() && (five.accepts)(&format!("{f}{body}")))
    } else {
        figures.find(|f| (five.accepts)(&format!("{body}{f}")))
    }
}

/// Every replacement that is accepted, then every exchange, each from the left.
fn entries(five: &Five, number: &str) -> Vec<String> {
    let s = number.as_bytes();
    let mut found = Vec::new();
    let mut keep = |t: Vec<u8>| {
        let t = String::from_utf8(t).expect("digits");
        if (five.accepts)(&t) {
            found.push(t);
        }
    };
    for at in 0..s.len() {
        for digit in (b'0'..=b'9').filter(|&d| d != s[at]) {
            let mut t = s.to_vec();
            t[at] = digit;
            keep(t);
        }
    }
    for at in 1..s.len() {
        if s[at - 1] != s[at] {
            let mut t = s.to_vec();
            t.swap(at - 1, at);
            keep(t);
        }
    }
    found
}

/// The reason, the count and every byte of the area.
type Area = Lent<Done, u8>;

pub struct Complete;

impl Function for Complete {
    type Found = Area;
    const PARTS: &[Part] = &[Number("room"), Scheme, Content("content")];
    const LIBRARY: Call<Area> = |i| called(i, library::complete);
    const ORIGINAL: Call<Area> = |i| lent(i, completed);
    const ROWS: Rows = || {
        rows("complete", |five| {
            [&["done", "FORM", "ROOM"], five.also_completing].concat()
        })
    };
    const ROW: Call<usize> = |i| place(i.scheme);
    const LETTER: char = 'k';
}

pub struct List;

impl Function for List {
    type Found = Area;
    const PARTS: &[Part] = &[Number("room"), Scheme, Content("content")];
    const LIBRARY: Call<Area> = |i| called(i, library::list);
    const ORIGINAL: Call<Area> = |i| lent(i, listed);
    const ROWS: Rows = || {
        rows("list", |five| {
            let of_each = ["done", "LONG", "UTF8", "FORM", "ROOM", "GOOD"];
            [&of_each, five.also_listing].concat()
        })
    };
    const ROW: Call<usize> = |i| place(i.scheme);
    const LETTER: char = 'l';
}

/// What an area is filled with before a call: no digit.
const FILL: u8 = b'.';

fn called(input: Input<'_>, library: fn(&[u8], &[u8], &mut [u8]) -> Done) -> Area {
    let mut area = vec![FILL; input.number as usize];
    let head = library(input.scheme, input.content, &mut area);
    Area { head, area }
}

/// What comes of a scheme and a content with room for so many bytes, and what is written.
type Work = fn(&[u8], &[u8], usize) -> (Done, String);

fn lent(input: Input<'_>, original: Work) -> Area {
    let room = input.number as usize;
    let (head, written) = original(input.scheme, input.content, room);
    Area::filled(head, written.as_bytes(), FILL, room)
}

/// A row for each scheme in the order of `FIVE`, and one for all others.
fn rows(name: &str, outcomes: fn(&Five) -> Vec<&'static str>) -> Vec<Row> {
    let five = FIVE
        .iter()
        .map(|five| (format!("{name} {}", five.scheme), outcomes(five)));
    let others = (format!("{name} others"), vec!["SCHEME"]);
    five.chain([others]).collect()
}

fn place(scheme: &[u8]) -> usize {
    let place = FIVE
        .iter()
        .position(|five| five.scheme.as_bytes() == scheme);
    place.unwrap_or(FIVE.len())
}

impl Found for Area {
    #[rustfmt::skip]
    const OUTCOMES: &[&str] = &[
        "done", "nothing found", "LONG", "UTF8", "FORM", "ZERO", "NO_FIGURE", "SCHEME", "ROOM", "GOOD",
    ];

    fn outcome(&self, _: Input<'_>) -> usize {
        match self.head.reason {
            0 => usize::from(self.head.count == 0),
            reason @ ..=FORM => 1 + reason as usize,
            reason => reason as usize,
        }
    }

    fn written(&self) -> String {
        let Done { reason, count } = self.head;
        format!(" {reason} {count} {}", escaped(&self.area))
    }
}
