//! The check figure that completes a number.

use crate::raw;
use crate::{Reason, Text};

/// The check figure that completes a body of digits, for 0088, 0192, 0208, 0007 and 0151: two digits for 0208 and 0151, else one.
/// For 0151 the two digits belong in front of the body, for the others behind it.
///
/// ```
/// use partyid::{Reason, complete};
///
/// assert_eq!(complete("0088", "123456789012")?.as_str(), "8");
/// assert_eq!(complete("0151", "824753556")?.as_str(), "51");
/// assert_eq!(complete("0192", "00000006"), Err(Reason::NoFigure));
/// assert_eq!(complete("0211", "1234567890"), Err(Reason::Scheme));
/// # Ok::<(), Reason>(())
/// ```
pub fn complete(scheme: impl AsRef<[u8]>, body: impl AsRef<[u8]>) -> Result<Text<2>, Reason> {
    let mut area = [0; 2];
    let done = raw::complete(scheme.as_ref(), body.as_ref(), &mut area);
    Reason::settle(done.reason)?;
    Ok(Text::new(area, done.count))
}
