//! The original's IBAN, creditor identifier, strict GLN and withdrawn codes.

use crate::answers::{CHECK, FORM, NO_RULE, accepted, readable, refused};
use crate::functions::Part::{Content, Scheme};
use crate::functions::{Call, Found, Function, Input, Part, Rows, escaped, row};
use crate::library::{self, Answer, Code};
use crate::original::{self, open};

pub fn iban(content: &[u8]) -> Answer {
    judged(content, |text| {
        match original::is_valid_iban_checksum(text) {
            true => 0,
            false if is_iban_form(&open::stripped(text)) => CHECK,
            false => FORM,
        }
    })
}

pub fn creditor(content: &[u8]) -> Answer {
    judged(
        content,
        |text| match original::is_valid_creditor_identifier(text) {
            true => 0,
            false => FORM,
        },
    )
}

/// The strict GLN. Which of its two tests a value failed, the original says in its hint.
pub fn eas_value(scheme: &[u8], content: &[u8]) -> Answer {
    let checked = str::from_utf8(scheme).ok();
    let Some(scheme) = checked.filter(|s| original::eas_value_is_checkable(s)) else {
        return NO_RULE;
    };
    judged(content, |text| {
        let hint = original::eas_value(scheme, text).err().and_then(|e| e.hint);
        match hint {
            None => 0,
            Some(hint) if hint.starts_with("the GS1 check digit is wrong") => CHECK,
            Some(_) => FORM,
        }
    })
}

pub fn withdrawn(code: &[u8]) -> Code {
    let record = str::from_utf8(code).ok().and_then(original::withdrawn);
    let (answer, successor) = match record.map(|w| w.use_instead) {
        None => (0, [0; 4]),
        Some(None) => (1, [0; 4]),
        Some(Some(code)) => (2, code.as_bytes().try_into().expect("four bytes")),
    };
    Code { answer, successor }
}

/// The answer by a reason, which is 0 where the original accepts; rule and severity are 0.
fn judged(content: &[u8], reason: impl Fn(&str) -> u32) -> Answer {
    match readable(content).map_or_else(|unread| unread, reason) {
        0 => accepted(0, 0),
        reason => refused(0, 0, reason),
    }
}

/// What the original tests of a stripped text before the remainder.
fn is_iban_form(s: &str) -> bool {
    let b = s.as_bytes();
    (5..=34).contains(&b.len())
        && b.iter().all(u8::is_ascii_alphanumeric)
        && b[..2].iter().all(u8::is_ascii_alphabetic)
        && b[2..4].iter().all(u8::is_ascii_digit)
}

pub struct Iban;

impl Function for Iban {
    type Found = Answer;
    const PARTS: &[Part] = &[Content("content")];
    const LIBRARY: Call<Answer> = |i| library::is_valid_iban_checksum(i.content);
    const ORIGINAL: Call<Answer> = |i| iban(i.content);
    const ROWS: Rows = || row("iban", &["accepted", "LONG", "UTF8", "FORM", "CHECK"]);
    const LETTER: char = 'i';
}

pub struct Creditor;

impl Function for Creditor {
    type Found = Answer;
    const PARTS: &[Part] = &[Content("content")];
    const LIBRARY: Call<Answer> = |i| library::is_valid_creditor_identifier(i.content);
    const ORIGINAL: Call<Answer> = |i| creditor(i.content);
    const ROWS: Rows = || row("creditor", &["accepted", "LONG", "UTF8", "FORM"]);
    const LETTER: char = 'r';
}

pub struct EasValue;

impl Function for EasValue {
    type Found = Answer;
    const PARTS: &[Part] = &[Scheme, Content("content")];
    const LIBRARY: Call<Answer> = |i| library::eas_value(i.scheme, i.content);
    const ORIGINAL: Call<Answer> = |i| eas_value(i.scheme, i.content);
    const ROWS: Rows = || {
        let outcomes = ["no rule", "accepted", "LONG", "UTF8", "FORM", "CHECK"];
        row("eas_value", &outcomes)
    };
    const LETTER: char = 'g';
}

pub struct Withdrawn;

impl Function for Withdrawn {
    type Found = Code;
    const PARTS: &[Part] = &[Content("code")];
    const LIBRARY: Call<Code> = |i| library::withdrawn(i.content);
    const ORIGINAL: Call<Code> = |i| withdrawn(i.content);
    const ROWS: Rows = || row("withdrawn", Code::OUTCOMES);
    const LETTER: char = 'w';
}

impl Found for Code {
    const OUTCOMES: &[&str] = &["not withdrawn", "no successor", "successor"];

    fn outcome(&self, _: Input<'_>) -> usize {
        self.answer as usize
    }

    fn written(&self) -> String {
        match self.answer {
            0 => " not withdrawn".to_owned(),
            1 => " withdrawn".to_owned(),
            _ => format!(" withdrawn, use {}", escaped(&self.successor)),
        }
    }
}
