//! Checks of party identifiers on invoices (GLN, organisation number, VAT number, IBAN ..): whether the published rule accepts one,
//! why not, which check figure completes it, and which numbers a slip of the hand could have made it from.
//!
//! Every decision is made by libpartyid, which is proved: this crate gives its numbers names and its areas owners. It takes any
//! bytes, refuses nothing by itself and allocates nothing.
//!
//! **A number that passes says nothing about whether the party exists.** A check figure finds slips of the hand. It knows no register.
//!
//! ```
//! use partyid::{Reason, Severity, Verdict, check, complete, corrections};
//!
//! let answer = check("0088", 34, "71");
//! assert_eq!(answer.verdict, Verdict::Refused);
//! assert_eq!(answer.rule, 40);
//! assert_eq!(answer.severity, Severity::Fatal);
//! assert_eq!(answer.reason, Reason::Check);
//!
//! // the numbers of two digits that the rule accepts and that one slip turns into 71
//! let found = corrections("0088", "71")?;
//! assert!(found.iter().eq(["31", "79", "17"]));
//!
//! // the check figure that belongs behind 7
//! assert_eq!(complete("0088", "7")?.as_str(), "9");
//! # Ok::<(), Reason>(())
//! ```

#![no_std]
#![deny(unsafe_code)]
#![warn(missing_docs)]

#[macro_use]
mod numbered;

mod answer;
mod check;
mod complete;
mod contract;
mod corrections;
mod lines;
mod piece;
mod points;
#[allow(unsafe_code)] // the one place: calls into the library
mod raw;
mod reason;
mod severity;
mod tally;
mod text;
mod verdict;
mod withdrawn;

pub use answer::Answer;
pub use check::{check, eas_value, is_valid_creditor_identifier, is_valid_iban_checksum};
pub use complete::complete;
pub use corrections::{Corrections, Entries, LIST_DIGITS, corrections};
pub use lines::{AnswerLines, answer_line, answer_lines};
pub use points::{Code, NotUtf8, Point, Points, decode, is_white, points};
pub use raw::{AREA, TALLY_COUNTS};
pub use reason::Reason;
pub use severity::Severity;
pub use tally::{RuleCounts, TALLY_LIMIT, Tally, TallyLines};
pub use text::{Text, normalize_space, strip};
pub use verdict::Verdict;
pub use withdrawn::{Scheme, Withdrawal, withdrawn};

#[cfg(doctest)]
#[doc = include_str!("../README.md")]
struct Readme; // its example is run with the others
