//! Decoding, white points, normalising and stripping.

use std::hint::black_box;

use oracle::library::{self, AREA, Point, Text};
use oracle::original::open;
use oracle::text::point_at;

use crate::case::Case;
use crate::row::Function;

pub fn cases() -> Vec<Case> {
    let mut cases = Vec::new();
    cases.extend(PLACES.map(decode));
    cases.extend([' ', '7', 'é', '\u{a0}', '\u{2003}', '😀'].map(is_white));
    for (of, content) in contents() {
        let (library, original) = (library::normalize_space, open::normalize_space);
        cases.push(written(&NORMALIZE_SPACE, of, content, library, original));
    }
    for (of, content) in contents() {
        let (library, original) = (library::strip, open::stripped);
        cases.push(written(&STRIP, of, content, library, original));
    }
    cases
}

// ---- points

static DECODE: Function = Function {
    name: "decode",
    lean: "`s[at..].chars().next()` of a `&str`",
    plain: "`str::from_utf8` of the four bytes at the place, then the first `char`",
};

/// A point of each length.
const POINTS: &str = "7é–😀 Straße 12";
const PLACES: [(usize, &str); 4] = [
    (0, "1 byte"),
    (1, "2 bytes"),
    (3, "3 bytes"),
    (6, "4 bytes"),
];

fn decode((at, of): (usize, &str)) -> Case {
    let bytes = POINTS.as_bytes();
    let point = library::decode(bytes, at);
    assert_eq!(Some(point), char_at(POINTS, at).map(point_of));
    assert_eq!(point, point_at(bytes, at));
    Case::new(&DECODE, of, move || {
        library::decode(black_box(bytes), black_box(at))
    })
    .lean(move || char_at(black_box(POINTS), black_box(at)))
    .plain(move || point_at(black_box(bytes), black_box(at)))
}

fn char_at(content: &str, at: usize) -> Option<char> {
    content[at..].chars().next()
}

fn point_of(c: char) -> Point {
    Point {
        code: u32::from(c),
        len: c.len_utf8(),
    }
}

static IS_WHITE: Function = Function {
    name: "is_white",
    lean: "`char::is_whitespace`, which stands in the loop without a call",
    plain: "`char::from_u32` before it",
};

fn is_white(c: char) -> Case {
    let code = u32::from(c);
    assert_eq!(library::is_white(code), c.is_whitespace(), "{c:?}");
    Case::new(&IS_WHITE, format!("U+{code:04X}"), move || {
        library::is_white(black_box(code))
    })
    .lean(move || black_box(c).is_whitespace())
    .plain(move || char::from_u32(black_box(code)).is_some_and(char::is_whitespace))
}

// ---- texts

static NORMALIZE_SPACE: Function = Function {
    name: "normalize_space",
    lean: "the original's function of a `&str`, which makes a `String`",
    plain: "`str::from_utf8` before it",
};

static STRIP: Function = Function {
    name: "strip",
    lean: "the first line of the original's `is_valid_iban_checksum` of a `&str`, which makes a `String`",
    plain: "`str::from_utf8` before it",
};

fn contents() -> [(&'static str, String); 4] {
    let address = "Straße 12, Gebäude B\u{a0}– 3.\u{2003}Stock; ";
    [
        ("13 digits", "4012345000009".to_owned()),
        ("IBAN with blanks", "DE89 3704 0044 0532 0130 00".to_owned()),
        ("1,024 digits", "7".repeat(AREA)),
        ("1,024 bytes of text", text_of(address, AREA)),
    ]
}

/// A text over and over, filled up with digits to a length.
fn text_of(part: &str, length: usize) -> String {
    let mut text = part.repeat(length / part.len());
    text.extend(std::iter::repeat_n('7', length - text.len()));
    text
}

fn written(
    function: &'static Function,
    of: &str,
    content: String,
    library: impl Fn(&[u8], &mut [u8; AREA]) -> Text + 'static,
    original: impl Fn(&str) -> String + Copy + 'static,
) -> Case {
    let content: &'static str = content.leak();
    let bytes = content.as_bytes();
    let mut area = [0; AREA];
    let text = library(bytes, &mut area);
    assert_eq!(&area[..text.len], original(content).as_bytes());
    Case::new(function, of, move || {
        library(black_box(bytes), black_box(&mut area))
    })
    .lean(move || original(black_box(content)))
    .plain(move || str::from_utf8(black_box(bytes)).map(original))
}
