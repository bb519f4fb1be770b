//! IBAN, creditor identifier, strict GLN and withdrawn codes beside the original's functions.

use std::hint::black_box;

use oracle::library::{self, Answer};
use oracle::original;

use crate::case::Case;
use crate::row::Function;

pub fn cases() -> Vec<Case> {
    let mut cases = Vec::new();
    for (of, content) in IBANS {
        let (library, original) = (
            library::is_valid_iban_checksum,
            original::is_valid_iban_checksum,
        );
        cases.push(account(&IBAN, of, content, library, original));
    }
    for (of, content) in CREDITORS {
        let (library, original) = (
            library::is_valid_creditor_identifier,
            original::is_valid_creditor_identifier,
        );
        cases.push(account(&CREDITOR, of, content, library, original));
    }
    cases.extend(VALUES.map(eas_value));
    cases.extend(["9901", "9905", "9958", "0088"].map(withdrawn));
    cases
}

// ---- IBAN and creditor identifier

static IBAN: Function = Function {
    name: "is_valid_iban_checksum",
    lean: "the original's function of a `&str`",
    plain: "`str::from_utf8` before it",
};

const IBANS: [(&str, &str); 3] = [
    ("22 characters", "DE89370400440532013000"),
    ("with blanks", "FR14 2004 1010 0505 0001 3M02 606"),
    ("wrong figure", "DE88370400440532013000"),
];

static CREDITOR: Function = Function {
    name: "is_valid_creditor_identifier",
    lean: "the original's function of a `&str`",
    plain: "`str::from_utf8` before it",
};

const CREDITORS: [(&str, &str); 3] = [
    ("18 characters", "DE98ZZZ09999999999"),
    ("with blanks", "DE98 ZZZ0 9999 9999 99"),
    ("no figures, refused", "DEUTSCHE BUNDESBANK"),
];

fn account(
    function: &'static Function,
    of: &str,
    content: &'static str,
    library: impl Fn(&[u8]) -> Answer + 'static,
    original: impl Fn(&str) -> bool + Copy + 'static,
) -> Case {
    let bytes = content.as_bytes();
    assert_eq!(library(bytes).verdict == 1, original(content), "{content}");
    Case::new(function, of, move || library(black_box(bytes)))
        .lean(move || original(black_box(content)))
        .plain(move || str::from_utf8(black_box(bytes)).map(original))
}

// ---- strict GLN

static EAS_VALUE: Function = Function {
    name: "eas_value",
    lean: "the original's function of two `&str`; a refusal comes with a text for people",
    plain: "`str::from_utf8` of both before it",
};

/// What the value is, its scheme and the value.
const VALUES: [(&str, &str, &str); 3] = [
    ("13 digits", "0088", "4012345000009"),
    ("wrong figure", "0088", "4012345000008"),
    ("another scheme", "0192", "123456785"),
];

fn eas_value((of, scheme, content): (&str, &'static str, &'static str)) -> Case {
    let (code, bytes) = (scheme.as_bytes(), content.as_bytes());
    let passes = original::eas_value(scheme, content).is_ok();
    assert_eq!(library::eas_value(code, bytes).verdict != 2, passes);
    Case::new(&EAS_VALUE, of, move || {
        library::eas_value(black_box(code), black_box(bytes))
    })
    .lean(move || original::eas_value(black_box(scheme), black_box(content)))
    .plain(move || {
        let scheme = str::from_utf8(black_box(code)).ok()?;
        let content = str::from_utf8(black_box(bytes)).ok()?;
        Some(original::eas_value(scheme, content))
    })
}

// ---- withdrawn codes

static WITHDRAWN: Function = Function {
    name: "withdrawn",
    lean: "the original's function of a `&str`; it gives a reference to its record",
    plain: "`str::from_utf8` before it, and the successor's bytes copied",
};

fn withdrawn(code: &'static str) -> Case {
    let bytes = code.as_bytes();
    let answer = oracle::accounts::withdrawn(bytes);
    assert_eq!(library::withdrawn(bytes), answer);
    Case::new(&WITHDRAWN, code, move || {
        library::withdrawn(black_box(bytes))
    })
    .lean(move || original::withdrawn(black_box(code)))
    .plain(move || oracle::accounts::withdrawn(black_box(bytes)))
}
