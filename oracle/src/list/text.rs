//! Decoding, normalising and stripping.

use oracle::functions::{Found, Function};
use oracle::inputs;
use oracle::library::Point;
use oracle::random::Random;
use oracle::text::{NormalizeSpace, Strip, point_at};

use crate::draw;
use crate::example::{AT_THE_LIMIT, Example};
use crate::part::Part;

pub fn parts() -> Vec<Part> {
    vec![
        decode(),
        Part::of::<NormalizeSpace>(0, &TEXT, |r, _| changed::<NormalizeSpace>(r)),
        Part::of::<Strip>(0, &TEXT, |r, _| changed::<Strip>(r)),
    ]
}

fn decode() -> Part {
    let wanted = [
        ("ill-formed", 130),
        ("1 byte", 30),
        ("2 bytes", 40),
        ("3 bytes", 50),
        ("4 bytes", 50),
        ("1 byte, white", 20),
        ("2 bytes, white", 10),
        ("3 bytes, white", 30),
    ];
    Part::new('d', "by the longest point", &wanted, |r, _| {
        let mut content = spelled(r);
        if r.one_in(2) {
            inputs::random(r, &mut content);
            content.truncate(8);
        }
        steps(content)
    })
}

/// The ends of the rows of RFC 3629, of what it leaves out among them, and of the numbers that four bytes could spell.
const ENDS: [u32; 16] = [
    0, 0x7f, 0x80, 0x7ff, 0x800, 0xfff, 0x1000, 0xd7ff, 0xd800, 0xdfff, 0xe000, 0xffff, 0x1_0000,
    0x10_ffff, 0x11_0000, 0x1f_ffff,
];

/// A number in two to four bytes, where they could spell it, well-formed or not, behind a letter; it may lack its last byte.
fn spelled(r: &mut Random) -> Vec<u8> {
    let c = match r.below(3) {
        0 => r.below(0x20_0000) as u32,
        1 => r.below(0x1_0000) as u32,
        _ => *r.among(&ENDS),
    };
    let tail = |shift: u32| 0x80 | (c >> shift & 0x3f) as u8;
    let mut content = match (c, r.below(3)) {
        (0..0x800, 0) => vec![b'a', 0xc0 | (c >> 6) as u8, tail(0)],
        (0..0x1_0000, 0..2) => vec![b'a', 0xe0 | (c >> 12) as u8, tail(6), tail(0)],
        _ => vec![b'a', 0xf0 | (c >> 18) as u8, tail(12), tail(6), tail(0)],
    };
    match r.below(5) {
        0 => drop(content.pop()),
        _ => content.push(b'b'),
    }
    content
}

/// The step of decoding at each place and at the end.
fn steps(content: Vec<u8>) -> Example {
    let points = (0..=content.len()).map(|at| point_at(&content, at));
    let answer = points.clone().map(|point| point.written()).collect();
    let longest = points.max_by_key(|p| (p.len, is_white(*p)));
    let outcome = match longest.map(|p| (p.len, is_white(p))) {
        _ if str::from_utf8(&content).is_err() => "ill-formed",
        Some((2, false)) => "2 bytes",
        Some((3, false)) => "3 bytes",
        Some((4, _)) => "4 bytes",
        Some((1, true)) => "1 byte, white",
        Some((2, true)) => "2 bytes, white",
        Some((3, true)) => "3 bytes, white",
        _ => "1 byte",
    };
    Example {
        head: Vec::new(),
        content,
        answer,
        outcome,
    }
}

/// What Rust calls white, of a code point.
fn is_white(point: Point) -> bool {
    point.len != 0 && char::from_u32(point.code).is_some_and(char::is_whitespace)
}

/// How many examples of each outcome of a text.
const TEXT: [(&str, usize); 7] = [
    ("LONG", 5),
    ("UTF8", 60),
    ("nothing left", 20),
    ("unchanged", 70),
    ("shorter", 90),
    ("same length", 50),
    (AT_THE_LIMIT, 5),
];

fn changed<F: Function>(r: &mut Random) -> Example {
    let mut content = draw::any(r);
    if r.one_in(3) {
        inputs::random(r, &mut content);
    }
    Example::of::<F>(b"", 0, content)
}
