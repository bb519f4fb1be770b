//! Enums whose cases carry the numbers of include/partyid.h, and short words for a reader.

macro_rules! numbered {
    ($(#[$about:meta])* $name:ident called $what:literal { $($(#[$doc:meta])* $case:ident = $number:literal $words:literal,)* }) => {
        $(#[$about])*
        #[repr(u32)]
        #[derive(Clone, Copy, Debug, PartialEq, Eq, Hash)]
        pub enum $name {
            $($(#[$doc])* $case = $number,)*
        }

        impl $name {
            /// Every case, in the order of the numbers.
            pub const ALL: &[Self] = &[$(Self::$case,)*];

            /// The number that stands for the case.
            pub const fn number(self) -> u32 {
                self as u32
            }

            /// The case that a number stands for, if there is one.
            pub const fn from_number(number: u32) -> Option<Self> {
                match number {
                    $($number => Some(Self::$case),)*
                    _ => None,
                }
            }

            /// The case of a number that the library gave.
            pub(crate) fn of_library(number: u32) -> Self {
                match Self::from_number(number) {
                    Some(case) => case,
                    None => $crate::contract::broken($what, &number),
                }
            }
        }

        impl core::fmt::Display for $name {
            fn fmt(&self, f: &mut core::fmt::Formatter<'_>) -> core::fmt::Result {
                f.pad(match self {
                    $(Self::$case => $words,)*
                })
            }
        }
    };
}

#[cfg(test)]
mod tests {
    use crate::{Reason, Severity, Verdict};

    #[test]
    fn a_number_and_its_case_are_one() {
        assert!((0..).zip(Verdict::ALL).all(|(n, c)| c.number() == n));
        assert!(
            Reason::ALL
                .iter()
                .all(|c| Reason::of_library(c.number()) == *c)
        );
        assert_eq!(Verdict::from_number(4), None);
        assert_eq!(Severity::from_number(3), None);
        assert_eq!(Reason::from_number(13), None);
    }

    #[test]
    #[should_panic(expected = "answered the verdict 4,")]
    fn a_verdict_that_there_is_not_is_named() {
        Verdict::of_library(4);
    }

    #[test]
    #[should_panic(expected = "answered the severity 3,")]
    fn a_severity_that_there_is_not_is_named() {
        Severity::of_library(3);
    }

    #[test]
    #[should_panic(expected = "answered the reason 4294967295,")]
    fn a_reason_that_there_is_not_is_named() {
        Reason::of_library(u32::MAX);
    }
}
