//! Texts that own their bytes: normalised, stripped, and check figures.

use crate::contract;
use crate::raw;
use crate::{AREA, Reason};
use core::fmt;

/// A text of at most `ROOM` bytes, in an area of its own.
#[derive(Clone)]
pub struct Text<const ROOM: usize = AREA> {
    area: [u8; ROOM],
    len: usize,
}

impl<const ROOM: usize> Text<ROOM> {
    pub(crate) fn new(area: [u8; ROOM], len: usize) -> Self {
        if len > ROOM {
            contract::broken("length", &len);
        }
        Text { area, len }
    }

    /// The text's bytes.
    pub fn as_bytes(&self) -> &[u8] {
        &self.area[..self.len]
    }

    /// The text.
    pub fn as_str(&self) -> &str {
        contract::text(self.as_bytes())
    }
}

impl<const ROOM: usize> AsRef<[u8]> for Text<ROOM> {
    fn as_ref(&self) -> &[u8] {
        self.as_bytes()
    }
}

impl<const ROOM: usize> AsRef<str> for Text<ROOM> {
    fn as_ref(&self) -> &str {
        self.as_str()
    }
}

impl<const ROOM: usize> PartialEq for Text<ROOM> {
    fn eq(&self, other: &Self) -> bool {
        self.as_bytes() == other.as_bytes()
    }
}

impl<const ROOM: usize> Eq for Text<ROOM> {}

impl<const ROOM: usize> fmt::Debug for Text<ROOM> {
    fn fmt(&self, f: &mut fmt::Formatter<'_>) -> fmt::Result {
        fmt::Debug::fmt(self.as_str(), f)
    }
}

impl<const ROOM: usize> fmt::Display for Text<ROOM> {
    fn fmt(&self, f: &mut fmt::Formatter<'_>) -> fmt::Result {
        f.pad(self.as_str())
    }
}

/// White at both ends dropped, and each inner run of it one space. Refused with [`Reason::Long`] or [`Reason::Utf8`].
///
/// ```
/// use partyid::{Reason, normalize_space};
///
/// assert_eq!(normalize_space(" 1 \u{a0} 7 ")?.as_str(), "1 7");
/// assert_eq!(normalize_space(b"1\xff"), Err(Reason::Utf8));
/// # Ok::<(), Reason>(())
/// ```
pub fn normalize_space(content: impl AsRef<[u8]>) -> Result<Text, Reason> {
    written_by(raw::normalize_space, content.as_ref())
}

/// Every white point removed. Refused with [`Reason::Long`] or [`Reason::Utf8`].
///
/// ```
/// use partyid::{Reason, strip};
///
/// assert_eq!(strip(" 1 \u{a0} 7 ")?.as_str(), "17");
/// assert_eq!(strip(" ".repeat(1025)), Err(Reason::Long));
/// # Ok::<(), Reason>(())
/// ```
pub fn strip(content: impl AsRef<[u8]>) -> Result<Text, Reason> {
    written_by(raw::strip, content.as_ref())
}

type Writer = fn(&[u8], &mut [u8; AREA]) -> raw::Text;

fn written_by(write: Writer, content: &[u8]) -> Result<Text, Reason> {
    let mut area = [0; AREA];
    let text = write(content, &mut area);
    Reason::settle(text.reason)?;
    Ok(Text::new(area, text.len))
}

#[cfg(test)]
mod tests {
    #[test]
    #[should_panic(expected = "answered the length 3,")]
    fn a_length_over_the_area_is_named() {
        super::Text::new([0; 2], 3);
    }
}
