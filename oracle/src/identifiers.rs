//! Contents that a rule accepts or nearly accepts, as they come: whole, with a slip of the hand, with white around them.

use crate::original::{self, open};
use crate::points::WHITE;
use crate::random::Random;

/// Contents of every form that a rule or an account accepts, the shortest and the longest where lengths differ, and codes that were withdrawn.
pub const GOOD: [&str; 32] = [
    "0",
    "17",
    "4012345000009",
    "12345678901234567890",
    "123456785",
    "000000140",
    "000000000",
    "12345678",
    "DK12345678",
    "1234567894",
    "0000009797",
    "aZ09zA",
    "RSSMRA85T10A562S",
    "ABCDEF+1G 2xyz3H",
    "ABCDEF-1G+2é€😀3H",
    "12345678901",
    "+1234567890",
    "IT12345678903",
    "it12345678903",
    "1234567897",
    "51824753556",
    "01000100000",
    "123456789012",
    "NL123456789B12",
    "aa750",
    "DE89370400440532013000",
    "FR14 2004 1010 0505 0001 3M02 606",
    "MT41ABCDEFGHIJKLMNOPQRSTUVWXYZ0123",
    "AB12CDEF",
    "DE98ZZZ0999999999901234567890123456",
    "9905",
    "9958",
];

/// A content for one of the rules, accepted by it or one or two changes away.
pub fn near(r: &mut Random, content: &mut Vec<u8>) {
    let mut text = accepted(r).into_bytes();
    for _ in 0..r.below(3) {
        slip(r, &mut text);
    }
    if r.one_in(4) {
        white(r, &mut text);
    }
    content.extend(text);
}

pub fn accepted(r: &mut Random) -> String {
    match r.below(14) {
        0 => {
            let n = 1 + r.below(22);
            figure(r, n, 1, open::gln)
        }
        1 => figure(r, 13, 1, open::gln),
        2 => figure(r, 9, 1, open::mod11),
        3 => figure(r, 10, 2, open::mod97_0208),
        4 => figure(r, 10, 1, open::se_orgnr),
        5 => figure(r, 11, 2, open::abn),
        6 => figure(r, 11, 1, italian_figure),
        7 => italian(r),
        8 => {
            let form = *r.among(&["##########", "########", "DK########", "############"]);
            spelled(r, form)
        }
        9 => {
            let form = *r.among(&["####################", "NL#########B##", "******"]);
            spelled(r, form)
        }
        10 => codice(r),
        11 => account(r),
        12 => format!("99{}", digits(r, 2)),
        _ => spelled(r, "&&##***********"),
    }
}

pub fn digits(r: &mut Random, n: usize) -> String {
    (0..n)
        .map(|_| char::from(b'0' + r.below(10) as u8))
        .collect()
}

/// n digits of which the last ones are tried until they are right; where none is, as they are.
pub fn figure(r: &mut Random, n: usize, width: usize, accepts: fn(&str) -> bool) -> String {
    let body = digits(r, n - width.min(n));
    let mut whole = body.clone();
    for figure in 0..10_u8.pow(width as u32) {
        whole.truncate(body.len());
        if width == 2 {
            whole.push(char::from(b'0' + figure / 10));
        }
        whole.push(char::from(b'0' + figure % 10));
        if accepts(&whole) {
            return whole;
        }
    }
    body
}

fn italian_figure(number: &str) -> bool {
    open::partita_iva(&format!("IT{number}"))
}

pub fn italian(r: &mut Random) -> String {
    let number = figure(r, 11, 1, italian_figure);
    let prefix = *r.among(&["IT", "it", "It", "iT", "IT ", "DE"]);
    format!("{prefix}{number}")
}

/// `#` a digit, `&` a letter, `*` a letter or a digit, any other character itself.
pub fn spelled(r: &mut Random, classes: &str) -> String {
    classes
        .chars()
        .map(|class| match class {
            '#' => char::from(b'0' + r.below(10) as u8),
            '&' => letter(r),
            '*' if r.one_in(2) => letter(r),
            '*' => char::from(b'0' + r.below(10) as u8),
            c => c,
        })
        .collect()
}

fn letter(r: &mut Random) -> char {
    char::from(*r.among(b"ABCDEFGHIJKLMNOPQRSTUVWXYZabcdefghijklmnopqrstuvwxyz"))
}

/// A codice fiscale: signs and blanks where an integer text allows them, and points of several bytes where anything stands.
pub fn codice(r: &mut Random) -> String {
    let integer = |r: &mut Random, n: usize| -> String {
        let sign = *r.among(&["", "", "+", "-", " ", "\u{2003}"]);
        let n = n - sign.chars().count();
        format!("{sign}{}", digits(r, n))
    };
    if r.one_in(4) {
        return integer(r, 11);
    }
    let (day, place) = (integer(r, 2), integer(r, 2));
    let any: String = (0..3)
        .map(|_| *r.among(&['x', '7', ' ', 'é', '€', '😀']))
        .collect();
    format!(
        "{}{day}{}{place}{any}{}{}",
        spelled(r, "&&&&&&"),
        letter(r),
        digits(r, 1),
        letter(r)
    )
}

/// An IBAN: the pair is tried until the number is right.
fn account(r: &mut Random) -> String {
    let country = spelled(r, "&&");
    let rest: String = (0..1 + r.below(31)).map(|_| spelled(r, "*")).collect();
    (0..100)
        .map(|pair| format!("{country}{pair:02}{rest}"))
        .find(|s| original::is_valid_iban_checksum(s))
        .unwrap_or(rest)
}

/// A digit or letter replaced, two neighbours exchanged, one left out or one too many.
pub fn slip(r: &mut Random, text: &mut Vec<u8>) {
    if text.is_empty() {
        return;
    }
    let at = r.below(text.len());
    if !text[at].is_ascii() {
        return;
    }
    match r.below(6) {
        0..=2 => text[at] = b'0' + r.below(10) as u8,
        3 if at + 1 < text.len() && text[at + 1].is_ascii() => text.swap(at, at + 1),
        4 => drop(text.remove(at)),
        _ => text.insert(at, *r.among(b"0123456789ABab +-/:")),
    }
}

/// A white point somewhere, at an end or within.
fn white(r: &mut Random, text: &mut Vec<u8>) {
    let mut whole = String::from_utf8_lossy(text).into_owned();
    let ends: Vec<usize> = whole
        .char_indices()
        .map(|(at, _)| at)
        .chain([whole.len()])
        .collect();
    let at = match r.below(3) {
        0 => 0,
        1 => whole.len(),
        _ => *r.among(&ends),
    };
    whole.insert(at, *r.among(&WHITE));
    *text = whole.into_bytes();
}
