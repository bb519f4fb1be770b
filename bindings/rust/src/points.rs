//! The code points of a content.

use crate::contract;
use crate::raw;
use core::fmt;
use core::iter::FusedIterator;

/// A code point, and how many bytes it takes, 1 to 4.
#[derive(Clone, Copy, Debug, PartialEq, Eq, Hash)]
pub struct Point {
    /// The code point.
    pub code: char,
    /// How many bytes it takes.
    pub len: usize,
}

/// The code point that begins at a byte of a content, by RFC 3629; `None` where none begins, and past the end.
///
/// ```
/// use partyid::{Point, decode};
///
/// assert_eq!(decode("1é", 1), Some(Point { code: 'é', len: 2 }));
/// assert_eq!(decode("1é", 2), None);
/// assert_eq!(decode("1é", 3), None);
/// ```
pub fn decode(content: impl AsRef<[u8]>, at: usize) -> Option<Point> {
    match raw::decode(content.as_ref(), at) {
        raw::Point { len: 0, .. } => None,
        raw::Point { code, len } => match char::from_u32(code) {
            Some(code) => Some(Point { code, len }),
            None => contract::broken("code point", &code),
        },
    }
}

/// Whether a code point, a `char` or any `u32`, is one of the 25 white ones.
///
/// ```
/// use partyid::is_white;
///
/// assert!(is_white('\u{a0}'));
/// assert!(is_white(0xa0));
/// assert!(!is_white('\u{feff}'));
/// assert!(!is_white(u32::MAX));
/// ```
pub fn is_white(code: impl Code) -> bool {
    raw::is_white(code.number())
}

/// What [`is_white`] takes: a `char` or a `u32`. No other number is one, so that a plain literal is a `u32`.
pub trait Code: sealed::Sealed {
    /// The code point's number.
    fn number(self) -> u32;
}

impl Code for char {
    fn number(self) -> u32 {
        self.into()
    }
}

impl Code for u32 {
    fn number(self) -> u32 {
        self
    }
}

mod sealed {
    pub trait Sealed {}
    impl Sealed for char {}
    impl Sealed for u32 {}
}

/// The code points of a content, one after another. What is not well-formed ends them with an error.
///
/// ```
/// use partyid::{NotUtf8, points};
///
/// assert_eq!(points("1é").collect::<Result<String, NotUtf8>>(), Ok("1é".to_string()));
/// assert_eq!(points(b"1\xff7").collect::<Result<String, NotUtf8>>(), Err(NotUtf8 { at: 1 }));
/// ```
pub fn points<T: AsRef<[u8]> + ?Sized>(content: &T) -> Points<'_> {
    Points {
        content: content.as_ref(),
        at: 0,
    }
}

/// The code points of a content: what [`points`] gives.
#[derive(Clone, Debug)]
pub struct Points<'a> {
    content: &'a [u8],
    at: usize,
}

impl Iterator for Points<'_> {
    type Item = Result<char, NotUtf8>;

    fn next(&mut self) -> Option<Self::Item> {
        let at = self.at;
        if at == self.content.len() {
            return None;
        }
        match decode(self.content, at) {
            Some(point) => {
                self.at += point.len;
                Some(Ok(point.code))
            }
            None => {
                self.at = self.content.len();
                Some(Err(NotUtf8 { at }))
            }
        }
    }
}

impl FusedIterator for Points<'_> {}

/// No well-formed code point begins at a byte where one should.
#[derive(Clone, Copy, Debug, PartialEq, Eq, Hash)]
pub struct NotUtf8 {
    /// The byte's place, counted from 0.
    pub at: usize,
}

impl fmt::Display for NotUtf8 {
    fn fmt(&self, f: &mut fmt::Formatter<'_>) -> fmt::Result {
        write!(f, "no well-formed UTF-8 at byte {}", self.at)
    }
}

impl core::error::Error for NotUtf8 {}
