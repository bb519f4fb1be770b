//! Scheme codes that are withdrawn.

use crate::contract;
use crate::raw;
use core::fmt;

/// Whether a scheme code is withdrawn, and what took its place.
#[derive(Clone, Copy, Debug, PartialEq, Eq, Hash)]
pub enum Withdrawal {
    /// The code is none of the withdrawn ones. That does not say that there is such a code.
    NotWithdrawn,
    /// Withdrawn, and nothing took its place.
    NoSuccessor,
    /// Withdrawn, with the code that took its place.
    Successor(Scheme),
}

/// The four characters of a scheme code.
#[derive(Clone, Copy, PartialEq, Eq, Hash)]
pub struct Scheme([u8; 4]);

impl Scheme {
    /// The code.
    pub fn as_str(&self) -> &str {
        contract::text(&self.0)
    }
}

impl AsRef<str> for Scheme {
    fn as_ref(&self) -> &str {
        self.as_str()
    }
}

impl AsRef<[u8]> for Scheme {
    fn as_ref(&self) -> &[u8] {
        &self.0
    }
}

impl fmt::Display for Scheme {
    fn fmt(&self, f: &mut fmt::Formatter<'_>) -> fmt::Result {
        f.pad(self.as_str())
    }
}

impl fmt::Debug for Scheme {
    fn fmt(&self, f: &mut fmt::Formatter<'_>) -> fmt::Result {
        fmt::Debug::fmt(self.as_str(), f)
    }
}

impl Withdrawal {
    /// The number that stands for the case.
    pub const fn number(&self) -> u32 {
        match self {
            Withdrawal::NotWithdrawn => 0,
            Withdrawal::NoSuccessor => 1,
            Withdrawal::Successor(_) => 2,
        }
    }

    /// The code that took the withdrawn one's place, if there is one.
    pub fn successor(&self) -> Option<&str> {
        match self {
            Withdrawal::Successor(code) => Some(code.as_str()),
            _ => None,
        }
    }
}

impl fmt::Display for Withdrawal {
    fn fmt(&self, f: &mut fmt::Formatter<'_>) -> fmt::Result {
        match self {
            Withdrawal::NotWithdrawn => write!(f, "not withdrawn"),
            Withdrawal::NoSuccessor => write!(f, "withdrawn with no successor"),
            Withdrawal::Successor(code) => write!(f, "withdrawn, its successor is {code}"),
        }
    }
}

/// Whether a scheme code is withdrawn, and what took its place.
///
/// ```
/// use partyid::{Withdrawal, withdrawn};
///
/// assert_eq!(withdrawn("9901").successor(), Some("0096"));
/// if let Withdrawal::Successor(code) = withdrawn("9901") {
///     assert_eq!(code.to_string(), "0096");
/// }
/// assert_eq!(withdrawn("9905"), Withdrawal::NoSuccessor);
/// assert_eq!(withdrawn("0088"), Withdrawal::NotWithdrawn);
/// ```
pub fn withdrawn(code: impl AsRef<[u8]>) -> Withdrawal {
    of_library(raw::withdrawn(code.as_ref()))
}

fn of_library(code: raw::Code) -> Withdrawal {
    match code.answer {
        0 => Withdrawal::NotWithdrawn,
        1 => Withdrawal::NoSuccessor,
        2 => Withdrawal::Successor(Scheme(code.successor)),
        other => contract::broken("withdrawal", &other),
    }
}

#[cfg(test)]
mod tests {
    #[test]
    #[should_panic(expected = "answered the withdrawal 3,")]
    fn a_withdrawal_that_there_is_not_is_named() {
        super::of_library(crate::raw::Code {
            answer: 3,
            successor: [0; 4],
        });
    }
}
