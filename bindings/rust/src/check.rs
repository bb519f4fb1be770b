//! The checks: a field, accounts, the strict GLN.

use crate::Answer;
use crate::raw;

/// The check of a field: its scheme, the number of the business term (29, 30, 31, 34, 46 to 49, 60, 61, 63) and its content.
///
/// ```
/// use partyid::{Reason, Verdict, check};
///
/// assert_eq!(check("0192", 34, "123456785").verdict, Verdict::Accepted);
/// assert_eq!(check("0192", 34, "000000000").reason, Reason::Zero);
/// assert_eq!(check("0211", 34, "It1").verdict, Verdict::Unread);
/// assert_eq!(check("0060", 34, "x").verdict, Verdict::NoRule);
/// assert_eq!(check("0088", 34, b"17\xff").reason, Reason::Utf8);
/// assert_eq!(check("0088", u32::MAX, "17").reason, Reason::Term);
/// ```
pub fn check(scheme: impl AsRef<[u8]>, term: u32, content: impl AsRef<[u8]>) -> Answer {
    Answer::of_library(raw::check(scheme.as_ref(), term, content.as_ref()))
}

/// IBAN: 5 to 34 letters or digits once white is removed, and remainder 1 by 97. That is the whole test: no country's length.
///
/// ```
/// use partyid::{Reason, Verdict, is_valid_iban_checksum};
///
/// assert_eq!(is_valid_iban_checksum("GB82 WEST 1234 5698 7654 32").verdict, Verdict::Accepted);
/// assert_eq!(is_valid_iban_checksum("AA751").reason, Reason::Check);
/// ```
pub fn is_valid_iban_checksum(content: impl AsRef<[u8]>) -> Answer {
    Answer::of_library(raw::is_valid_iban_checksum(content.as_ref()))
}

/// Creditor identifier: its form alone, 8 to 35 letters or digits once white is removed, the first four two letters and two digits.
///
/// ```
/// use partyid::{Reason, Verdict, is_valid_creditor_identifier};
///
/// assert_eq!(is_valid_creditor_identifier("DE98 ZZZ0 9999 9999 99").verdict, Verdict::Accepted);
/// assert_eq!(is_valid_creditor_identifier("DE98ZZZ").reason, Reason::Form);
/// ```
pub fn is_valid_creditor_identifier(content: impl AsRef<[u8]>) -> Answer {
    Answer::of_library(raw::is_valid_creditor_identifier(content.as_ref()))
}

/// Strict GLN: with scheme 0088 exactly 13 digits, as they stand, and the check digit. Any other scheme has no rule.
///
/// ```
/// use partyid::{Reason, Verdict, eas_value};
///
/// assert_eq!(eas_value("0088", "1234567890128").verdict, Verdict::Accepted);
/// assert_eq!(eas_value("0088", "17").reason, Reason::Form);
/// assert_eq!(eas_value("0192", "123456785").verdict, Verdict::NoRule);
/// ```
pub fn eas_value(scheme: impl AsRef<[u8]>, content: impl AsRef<[u8]>) -> Answer {
    Answer::of_library(raw::eas_value(scheme.as_ref(), content.as_ref()))
}
