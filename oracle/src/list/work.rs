//! Completing and listing.

use oracle::answers::ROOM;
use oracle::corrections::{Complete, FIVE, Five, List, listed, room_for};
use oracle::functions::Function;
use oracle::random::Random;
use oracle::text;

use crate::draw;
use crate::example::{AT_THE_LIMIT, Example, PAST_THE_LIMIT};
use crate::part::Part;

/// How many examples of each outcome.
const COMPLETE: [(&str, usize); 5] = [
    ("done", 40),
    ("FORM", 30),
    ("ROOM", 8),
    ("ZERO", 5),
    ("NO_FIGURE", 20),
];
const LIST: [(&str, usize); 8] = [
    ("done", 24),
    ("nothing found", 6),
    ("GOOD", 20),
    ("FORM", 20),
    ("UTF8", 5),
    ("ROOM", 6),
    ("LONG", 1),
    (AT_THE_LIMIT, 1),
];
const OTHERS: [(&str, usize); 3] = [("SCHEME", 40), (AT_THE_LIMIT, 1), (PAST_THE_LIMIT, 1)];

pub fn parts() -> Vec<Part> {
    let complete = (0..).zip(&FIVE).map(|(row, five)| {
        Part::of::<Complete>(row, &COMPLETE, move |r, good| {
            let body = number(r, five.body, good);
            let room = r.below(8) as u64;
            Example::of::<Complete>(five.scheme.as_bytes(), room, body)
        })
    });
    let list = (0..).zip(&FIVE).map(|(row, five)| {
        Part::of::<List>(row, &LIST, move |r, good| {
            let content = match r.below(2) {
                0 => number(r, five.number, good),
                _ => draw::content(r, good),
            };
            let room = list_room(r, five, &content) as u64;
            Example::of::<List>(five.scheme.as_bytes(), room, content)
        })
    });
    complete
        .chain([others::<Complete>()])
        .chain(list)
        .chain([others::<List>()])
        .collect()
}

fn others<F: Function>() -> Part {
    Part::of::<F>(FIVE.len(), &OTHERS, |r, _| {
        let scheme = *r.among(&[
            "", "008", "00888", "0184", "0211", "9944", "0152", "0190", "é088",
        ]);
        let content = draw::any(r);
        Example::of::<F>(scheme.as_bytes(), r.below(8) as u64, content)
    })
}

/// Digits, as many as there should be or one more or fewer; or a good number with a slip of the hand.
fn number(r: &mut Random, (least, most): (usize, usize), good: &[Vec<u8>]) -> Vec<u8> {
    if !good.is_empty() && r.one_in(2) {
        let mut number = r.among(good).clone();
        draw::damage(r, &mut number);
        return number;
    }
    let n = least + r.below(most - least + 1);
    let n = if r.one_in(8) { n - 1 + r.below(3) } else { n };
    let digits = if r.one_in(10) { 1 } else { 10 };
    (0..n).map(|_| b'0' + r.below(digits) as u8).collect()
}

/// Room for a list, or one byte less, or some more. Where something else is wrong no room is needed.
fn list_room(r: &mut Random, five: &Five, content: &[u8]) -> usize {
    let (done, _) = listed(five.scheme.as_bytes(), content, 0);
    match done.reason {
        ROOM => room_for(text::normalized(content).0.len) - 1 + r.below(8),
        _ => r.below(8),
    }
}
