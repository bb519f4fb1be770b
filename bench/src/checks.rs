//! The field check beside the original's predicates.

use std::hint::black_box;

use oracle::known::BY_NUMBER;
use oracle::library::{self, Answer};

use crate::case::Case;
use crate::predicates::{self, accepts, plain};
use crate::row::Function;

static CHECK: Function = Function {
    name: "check",
    lean: "the rule's predicate of the original, of a `&str`: which rule is asked is told to it, and it gives no reason",
    plain: "the rule is chosen by scheme and term, `str::from_utf8`, then the predicate",
};

pub fn cases() -> Vec<Case> {
    let long = "0".repeat(library::AREA).leak();
    let mut cases = accepted_by_each();
    cases.extend(others());
    cases.push(read_by::<40>("1,024 zeros", long));
    cases.push(case("0060", 34, "no rule", "123456789"));
    cases
}

/// A content for each rule that it accepts, the rules by number.
fn accepted_by_each() -> Vec<Case> {
    let cases = [
        accepted_by::<40>("13 digits", "4012345000009"),
        accepted_by::<41>("9 digits", "123456785"),
        accepted_by::<42>("DK and 8 digits", "DK12345678"),
        accepted_by::<43>("10 digits", "1234567894"),
        accepted_by::<44>("6 letters and digits", "UFXY7Z"),
        accepted_by::<45>("codice fiscale", "RSSMRA85T10A562S"),
        accepted_by::<46>("codice fiscale of 11 digits", "12345678901"),
        accepted_by::<47>("IT and 11 digits", "IT12345678903"),
        accepted_by::<49>("10 digits", "1234567897"),
        accepted_by::<50>("11 digits", "51824753556"),
        accepted_by::<52>("10 digits", "1234567890"),
        accepted_by::<53>("DK and 8 digits", "DK12345678"),
        accepted_by::<54>("8 digits", "12345678"),
        accepted_by::<55>("20 digits", "12345678901234567890"),
        accepted_by::<57>("12 digits", "123456789012"),
        accepted_by::<561>("VAT number", "NL123456789B12"),
        accepted_by::<562>("VAT number", "NL123456789B12"),
    ];
    let (rules, cases): (Vec<_>, Vec<_>) = cases.into_iter().unzip();
    let published = BY_NUMBER.iter().map(|known| known.number());
    assert!(published.eq(rules));
    cases
}

/// Contents that are refused or let through, or have white around them.
fn others() -> [Case; 10] {
    [
        read_by::<40>("wrong figure", "4012345000008"),
        read_by::<40>("a letter, refused", "401234500000X"),
        read_by::<40>("white around", " 4012345000009\u{a0}"),
        read_by::<41>("nine zeros, refused", "000000000"),
        read_by::<42>("a blank, refused", " 12345678"),
        read_by::<43>("wrong figure", "1234567895"),
        read_by::<45>("a digit too early, refused", "RSSMR485T10A562S"),
        read_by::<47>("another country, let through", "DE123456789"),
        read_by::<50>("10 digits, refused", "5182475355"),
        read_by::<562>("another country, let through", "DE123456789"),
    ]
}

fn accepted_by<const RULE: u32>(of: &str, content: &'static str) -> (u32, Case) {
    let (scheme, term) = field(RULE);
    assert_eq!(answer(scheme, term, content).verdict, 1, "{content}");
    (RULE, read_by::<RULE>(of, content))
}

/// The rule is known when this is compiled, so that its predicate is called directly.
fn read_by<const RULE: u32>(of: &str, content: &'static str) -> Case {
    let (scheme, term) = field(RULE);
    assert_eq!(answer(scheme, term, content).rule, RULE, "{content}");
    let of = format!("{RULE}: {of}");
    case(scheme, term, of, content).lean(move || accepts(RULE, black_box(content)))
}

/// A field that the rule reads: the electronic address, or the first VAT number.
fn field(rule: u32) -> (&'static str, u32) {
    let known = BY_NUMBER.iter().find(|known| known.number() == rule);
    let known = known.expect("a rule");
    let terms = known.terms;
    (
        known.scheme,
        if terms.contains(&34) { 34 } else { terms[0] },
    )
}

fn case(scheme: &'static str, term: u32, of: impl Into<String>, content: &'static str) -> Case {
    let rust = predicates::check(scheme.as_bytes(), term, content.as_bytes());
    assert_eq!(plain(answer(scheme, term, content)), rust, "{content}");
    let (scheme, content) = (scheme.as_bytes(), content.as_bytes());
    Case::new(&CHECK, of, move || {
        library::check(black_box(scheme), black_box(term), black_box(content))
    })
    .plain(move || predicates::check(black_box(scheme), black_box(term), black_box(content)))
}

fn answer(scheme: &str, term: u32, content: &str) -> Answer {
    library::check(scheme.as_bytes(), term, content.as_bytes())
}
