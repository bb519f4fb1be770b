//! The field check as the original's seventeen rules give it, each on an invoice with that field alone.

use crate::answers::{CHECK, FORM, NO_RULE, TERM, ZERO, accepted, readable, refused, unread};
use crate::functions::Part::{Content, Number, Scheme};
use crate::functions::{Call, Found, Function, Input, Part, Rows};
use crate::invoice::{Invoice, Rule};
use crate::known::{self, KNOWN, Known, TERMS, VAT};
use crate::library::{self, Answer};
use crate::original::open;

/// The answer to a field: its scheme, the number of its term and its content.
pub fn answer(scheme: &[u8], term: u32, content: &[u8]) -> Answer {
    let scheme = held(scheme);
    if Invoice::with_field(scheme, term, "").is_none() {
        return refused(0, 0, TERM);
    }
    match rule_for(scheme, term) {
        Some(known) => answer_by(known, scheme, term, content),
        None => NO_RULE,
    }
}

/// A scheme as the original can hold it. Bytes that are not UTF-8 are none of its codes: an identifier without a scheme stands for them.
fn held(scheme: &[u8]) -> Option<&str> {
    str::from_utf8(scheme).ok()
}

/// The rule that reads a field, found by asking the original: every rule of a scheme reports `IT`, and the rule of VAT numbers reports `NL`.
fn rule_for(scheme: Option<&str>, term: u32) -> Option<&'static Known> {
    ["IT", "NL"]
        .iter()
        .find_map(|bad| reporting(scheme, term, bad).next())
}

/// Every rule that reports a field.
fn reporting(
    scheme: Option<&str>,
    term: u32,
    content: &str,
) -> impl Iterator<Item = &'static Known> {
    let inv = Invoice::with_field(scheme, term, content).unwrap_or_default();
    KNOWN
        .iter()
        .filter(move |known| refuses(known.rule, &inv, term))
}

/// Whether a rule reports the field of an invoice, at that field's term.
fn refuses(rule: &Rule, inv: &Invoice, term: u32) -> bool {
    let reported = rule.reported(inv);
    assert!(
        reported.is_none_or(|path| u32::from(path.term.0) == term),
        "a rule reports another field than the one there is"
    );
    reported.is_some()
}

/// The answer of the rule that reads the field.
fn answer_by(known: &Known, scheme: Option<&str>, term: u32, content: &[u8]) -> Answer {
    let (number, severity) = (known.number(), known.severity());
    let text = match readable(content) {
        Ok(text) => text,
        Err(reason) => return refused(number, severity, reason),
    };
    let inv = Invoice::with_field(scheme, term, text).expect("a term that the rule reads");
    if refuses(known.rule, &inv, term) {
        refused(number, severity, reason(known, text))
    } else if lets_through(known, text) {
        unread(number, severity)
    } else {
        accepted(number, severity)
    }
}

/// Why a rule refused a text. Where a rule has no check figure, what it refuses lacks the form.
fn reason(known: &Known, text: &str) -> u32 {
    match known.has_form(text) {
        false => FORM,
        true if known.also.contains(&"ZERO") && open::normalize_space(text) == "000000000" => ZERO,
        true => CHECK,
    }
}

fn lets_through(known: &Known, text: &str) -> bool {
    let begins = |prefix: &&str| open::normalize_space(text).starts_with(prefix);
    !known.prefixes.iter().any(begins)
}

/// The field check where a rule reads the field: against that rule, on an invoice with that field.
pub struct ByRule;

impl Function for ByRule {
    type Found = Answer;
    const PARTS: &[Part] = &[Scheme, Number("term"), Content("content")];
    const LIBRARY: Call<Answer> = |i| library::check(i.scheme, i.number as u32, i.content);
    const ORIGINAL: Call<Answer> = |i| {
        let term = i.number as u32;
        known::at(i.scheme, term).map_or(NO_RULE, |place| {
            answer_by(&KNOWN[place], held(i.scheme), term, i.content)
        })
    };
    const ROWS: Rows = || {
        let name = |known: &Known| format!("rule {}", known.number());
        let rows = KNOWN.iter().map(|known| (name(known), known.outcomes()));
        rows.collect()
    };
    const ROW: Call<usize> = |i| known::at(i.scheme, i.number as u32).unwrap_or(0);
    const LETTER: char = 'c';
}

/// The field check at any field: which rule reads it, and its answer, against all seventeen of the original's rules on an invoice with that field.
pub struct Check;

/// An answer, and the rules that report the field: none or one, where the original can read the content.
#[derive(Debug, PartialEq)]
pub struct Judged {
    pub answer: Answer,
    pub reporting: Vec<u32>,
}

impl Function for Check {
    type Found = Judged;
    const PARTS: &[Part] = &[Scheme, Number("term"), Content("content")];
    const LIBRARY: Call<Judged> = |i| {
        let answer = library::check(i.scheme, i.number as u32, i.content);
        let refuses = answer.verdict == 2 && answer.reason != TERM && readable(i.content).is_ok();
        let reporting = if refuses { vec![answer.rule] } else { vec![] };
        Judged { answer, reporting }
    };
    const ORIGINAL: Call<Judged> = |i| {
        let term = i.number as u32;
        let text = readable(i.content);
        let reporting = text.map(|text| reporting(held(i.scheme), term, text));
        Judged {
            answer: answer(i.scheme, term, i.content),
            reporting: reporting.map_or(vec![], |rules| rules.map(Known::number).collect()),
        }
    };
    const ROWS: Rows = || {
        let at = |term: u32| (format!("check at {term}"), outcomes_at(term));
        let elsewhere = ("check elsewhere".to_owned(), vec!["TERM"]);
        TERMS.into_iter().map(at).chain([elsewhere]).collect()
    };
    const ROW: Call<usize> = |i| {
        let place = TERMS.iter().position(|&term| u64::from(term) == i.number);
        place.unwrap_or(TERMS.len())
    };
    const LETTER: char = 'c';
}

impl Found for Judged {
    const OUTCOMES: &[&str] = Answer::OUTCOMES;

    fn outcome(&self, input: Input<'_>) -> usize {
        self.answer.outcome(input)
    }

    fn written(&self) -> String {
        self.answer.written()
    }
}

/// What can come of all the rules of a term; where the scheme counts, there may be none.
fn outcomes_at(term: u32) -> Vec<&'static str> {
    let rules = KNOWN.iter().filter(|known| known.terms.contains(&term));
    let can: Vec<_> = rules.flat_map(Known::outcomes).collect();
    let can = |name: &str| can.contains(&name) || name == "no rule" && !VAT.contains(&term);
    let all = Answer::OUTCOMES.iter().copied();
    all.filter(|name| can(name)).collect()
}
