//! The text layer: decoding, the white points, normalising and stripping.

use crate::answers::{LONG, UTF8, readable};
use crate::functions::Part::{Content, Number};
use crate::functions::{Call, Found, Function, Input, Lent, Part, Rows, escaped, row};
use crate::library::{self, AREA, Point, Text};
use crate::original::open;

/// The point that Rust reads at a place, of the four bytes there.
pub fn point_at(content: &[u8], at: usize) -> Point {
    let window = content.get(at..).unwrap_or(&[]);
    let window = &window[..window.len().min(4)];
    let sound = match str::from_utf8(window) {
        Ok(text) => text,
        Err(e) => str::from_utf8(&window[..e.valid_up_to()]).unwrap_or(""),
    };
    match sound.chars().next() {
        Some(c) => Point {
            code: u32::from(c),
            len: c.len_utf8(),
        },
        None => Point { code: 0, len: 0 },
    }
}

/// The reason with the length, and the text.
pub fn normalized(content: &[u8]) -> (Text, String) {
    written(content, open::normalize_space)
}

/// The reason with the length, and the text.
pub fn stripped(content: &[u8]) -> (Text, String) {
    written(content, open::stripped)
}

fn written(content: &[u8], original: fn(&str) -> String) -> (Text, String) {
    let (reason, text) = match readable(content) {
        Ok(s) => (0, original(s)),
        Err(reason) => (reason, String::new()),
    };
    let len = text.len();
    (Text { reason, len }, text)
}

pub struct Decode;

impl Function for Decode {
    type Found = Point;
    const PARTS: &[Part] = &[Number("place"), Content("content")];
    const LIBRARY: Call<Point> = |i| library::decode(i.content, i.number as usize);
    const ORIGINAL: Call<Point> = |i| point_at(i.content, i.number as usize);
    const ROWS: Rows = || row("decode", Point::OUTCOMES);
}

impl Found for Point {
    #[rustfmt::skip]
    const OUTCOMES: &[&str] = &["past the end", "refused", "1 byte", "2 bytes", "3 bytes", "4 bytes"];

    fn outcome(&self, input: Input<'_>) -> usize {
        match input.content.len() as u64 <= input.number {
            true => 0,
            false => 1 + self.len,
        }
    }

    fn written(&self) -> String {
        let Point { code, len } = *self;
        match char::from_u32(code) {
            _ if len == 0 => " refused".to_owned(),
            Some(c) if c.is_whitespace() => format!(" {code:04x}/{len}/white"),
            _ => format!(" {code:04x}/{len}"),
        }
    }
}

pub struct IsWhite;

impl Function for IsWhite {
    type Found = bool;
    const PARTS: &[Part] = &[Number("number")];
    const LIBRARY: Call<bool> = |i| library::is_white(i.number as u32);
    const ORIGINAL: Call<bool> =
        |i| char::from_u32(i.number as u32).is_some_and(char::is_whitespace);
    const ROWS: Rows = || row("is_white", bool::OUTCOMES);
}

impl Found for bool {
    const OUTCOMES: &[&str] = &["white", "not white", "no code point"];

    fn outcome(&self, input: Input<'_>) -> usize {
        char::from_u32(input.number as u32).map_or(2, |_| usize::from(!self))
    }
}

/// The numbers, the text, and zeros after it.
type Area = Lent<Text, u8>;

pub struct NormalizeSpace;

impl Function for NormalizeSpace {
    type Found = Area;
    const PARTS: &[Part] = &[Content("content")];
    const LIBRARY: Call<Area> = |i| called(i.content, library::normalize_space);
    const ORIGINAL: Call<Area> = |i| lent(normalized(i.content));
    const ROWS: Rows = || row("normalize_space", Area::OUTCOMES);
    const LETTER: char = 'n';
}

pub struct Strip;

impl Function for Strip {
    type Found = Area;
    const PARTS: &[Part] = &[Content("content")];
    const LIBRARY: Call<Area> = |i| called(i.content, library::strip);
    const ORIGINAL: Call<Area> = |i| lent(stripped(i.content));
    // only normalising can change a text and leave it as long
    const ROWS: Rows = || row("strip", &Area::OUTCOMES[..5]);
    const LETTER: char = 's';
}

fn called(content: &[u8], library: fn(&[u8], &mut [u8; AREA]) -> Text) -> Area {
    let mut area = vec![0xaa; AREA];
    let head = library(content, area.first_chunk_mut().expect("all of it"));
    Area { head, area }
}

fn lent((head, text): (Text, String)) -> Area {
    Area::filled(head, text.as_bytes(), 0, AREA)
}

impl Found for Area {
    #[rustfmt::skip]
    const OUTCOMES: &[&str] = &["LONG", "UTF8", "nothing left", "unchanged", "shorter", "same length"];

    fn outcome(&self, input: Input<'_>) -> usize {
        let Text { reason, len } = self.head;
        match len {
            _ if reason == LONG => 0,
            _ if reason == UTF8 => 1,
            0 => 2,
            _ if self.area[..len] == *input.content => 3,
            _ if len < input.content.len() => 4,
            _ => 5,
        }
    }

    fn written(&self) -> String {
        let Text { reason, len } = self.head;
        format!(" {reason} {len} {}", escaped(&self.area[..len]))
    }
}
