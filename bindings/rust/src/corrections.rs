//! The numbers that a slip of the hand could have made a refused number from.

use crate::contract;
use crate::raw;
use crate::{AREA, Reason};
use core::fmt;
use core::iter::FusedIterator;
use core::slice::ChunksExact;

/// The most digits of a number whose corrections are listed.
pub const LIST_DIGITS: usize = 20;

// PARTYID_LIST_ROOM of the most digits: no list needs more
const ROOM: usize = (2 * LIST_DIGITS - 1) * LIST_DIGITS;

/// Every number that is as long as a refused number, is accepted, and differs from it in one digit or by exchanging two unequal neighbours:
/// first the replacements, then the exchanges, each from the left. For 0088 (1 to 20 digits), 0192, 0208, 0007 and 0151.
///
/// Which of them was meant, and whether it is a party's number, the list does not say.
///
/// ```
/// use partyid::{Reason, corrections};
///
/// let found = corrections("0088", "71")?;
/// assert_eq!(found.len(), 3);
/// for number in &found {
///     println!("{number}");
/// }
/// assert!(found.iter().eq(["31", "79", "17"]));
///
/// assert!(corrections("0192", "000000000")?.is_empty());
/// assert_eq!(corrections("0088", "17").unwrap_err(), Reason::Good);
/// assert_eq!(corrections("0211", "IT1").unwrap_err(), Reason::Scheme);
/// # Ok::<(), Reason>(())
/// ```
pub fn corrections(
    scheme: impl AsRef<[u8]>,
    content: impl AsRef<[u8]>,
) -> Result<Corrections, Reason> {
    let mut area = [0; ROOM];
    let done = raw::list(scheme.as_ref(), content.as_ref(), &mut area);
    Reason::settle(done.reason)?;
    let width = width(content.as_ref());
    if width == 0 || done.count > ROOM / width {
        contract::broken("count and width", &(done.count, width));
    }
    Ok(Corrections {
        area,
        width,
        count: done.count,
    })
}

/// How long an entry is: as long as the normalised content, which the library's answer does not repeat.
fn width(content: &[u8]) -> usize {
    raw::normalize_space(content, &mut [0; AREA]).len
}

/// A list of corrections, in an area of its own: what [`corrections`] gives.
#[derive(Clone)]
pub struct Corrections {
    area: [u8; ROOM],
    width: usize,
    count: usize,
}

impl Corrections {
    /// How many there are.
    pub fn len(&self) -> usize {
        self.count
    }

    /// Whether there are none.
    pub fn is_empty(&self) -> bool {
        self.count == 0
    }

    /// The entries, in the library's order.
    pub fn iter(&self) -> Entries<'_> {
        Entries {
            rows: self.area[..self.count * self.width].chunks_exact(self.width),
        }
    }
}

impl<'a> IntoIterator for &'a Corrections {
    type Item = &'a str;
    type IntoIter = Entries<'a>;

    fn into_iter(self) -> Entries<'a> {
        self.iter()
    }
}

impl fmt::Debug for Corrections {
    fn fmt(&self, f: &mut fmt::Formatter<'_>) -> fmt::Result {
        f.debug_list().entries(self).finish()
    }
}

/// The entries of a list of corrections, each as its digits.
#[derive(Clone, Debug)]
pub struct Entries<'a> {
    rows: ChunksExact<'a, u8>,
}

impl<'a> Iterator for Entries<'a> {
    type Item = &'a str;

    fn next(&mut self) -> Option<&'a str> {
        self.rows.next().map(contract::text)
    }

    fn size_hint(&self) -> (usize, Option<usize>) {
        self.rows.size_hint()
    }
}

impl DoubleEndedIterator for Entries<'_> {
    fn next_back(&mut self) -> Option<Self::Item> {
        self.rows.next_back().map(contract::text)
    }
}

impl ExactSizeIterator for Entries<'_> {}

impl FusedIterator for Entries<'_> {}
