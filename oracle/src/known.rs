//! The original's rules, a row to each: where it reads, what can come of it, and contents that it accepts.

use std::sync::LazyLock;

use Content::{By, Figure, Form};

use crate::identifiers::{accepted, codice, figure, italian, slip, spelled};
use crate::invoice::{Rule, Severity};
use crate::original::*;
use crate::random::Random;

pub struct Known {
    pub rule: &'static Rule,
    /// Empty where the rule looks at no scheme.
    pub scheme: &'static str,
    code: u32,
    /// The term at which the rule is compared, and all at which it reads.
    pub term: u32,
    pub terms: &'static [u32],
    /// What can come of it beside the outcomes of every rule.
    pub also: &'static [&'static str],
    /// The texts that the rule is about begin so. It accepts all others, and doesn't say that it read nothing.
    pub prefixes: &'static [&'static str],
    content: Content,
}

/// What a rule accepts.
enum Content {
    /// A form, as `spelled` reads it.
    Form(&'static str),
    /// So many digits, of which the last so many are a check figure.
    Figure(usize, usize, fn(&str) -> bool),
    /// What makes one, and whether a text that is refused has the form.
    By(fn(&mut Random) -> String, fn(&str) -> bool),
}

/// The outcomes of every rule.
pub const OF_EVERY_RULE: [&str; 4] = ["accepted", "LONG", "UTF8", "FORM"];

/// The terms that a rule reads: by the scheme, of which 9907 has two, or as a VAT number.
pub const TERMS: [u32; 11] = [29, 30, 31, 34, 46, 47, 48, 49, 60, 61, 63];
pub const SCHEMED: &[u32] = &[29, 30, 34, 46, 47, 49, 60, 61];
const ENDPOINTS: &[u32] = &[34, 49];
pub const VAT: &[u32] = &[31, 48, 63];

/// In the order of `COMMON`.
#[rustfmt::skip]
pub static KNOWN: [Known; 17] = [
    known(&COMMON_R040, "0088", 34, &["CHECK"], By(some_digits, is_digits)),
    known(&COMMON_R041, "0192", 29, &["CHECK", "ZERO"], Figure(9, 1, open::mod11)),
    known(&COMMON_R042, "0184", 30, &[], Form("DK########")),
    known(&COMMON_R043, "0208", 46, &["CHECK"], Figure(10, 2, open::mod97_0208)),
    known(&COMMON_R044, "0201", 47, &[], Form("******")),
    known(&COMMON_R045, "0210", 49, &[], By(codice, |_| false)),
    Known { terms: ENDPOINTS, ..known(&COMMON_R046, "9907", 34, &[], By(codice, |_| false)) },
    Known { prefixes: &["IT", "it"], ..known(&COMMON_R047, "0211", 60, &["let through", "CHECK"], By(italian, is_italian)) },
    known(&COMMON_R049, "0007", 61, &["CHECK"], Figure(10, 1, open::se_orgnr)),
    known(&COMMON_R050, "0151", 34, &["CHECK"], Figure(11, 2, open::abn)),
    known(&COMMON_R052, "0096", 29, &[], Form("##########")),
    known(&COMMON_R053, "0198", 30, &[], Form("DK########")),
    known(&COMMON_R054, "0106", 46, &[], Form("########")),
    known(&COMMON_R055, "0190", 47, &[], Form("####################")),
    known(&COMMON_R056_1, "9944", 49, &[], Form("NL#########B##")),
    Known { terms: VAT, prefixes: &["NL"], ..known(&COMMON_R056_2, "", 31, &["let through"], By(accepted, |_| false)) },
    known(&COMMON_R057, "0217", 60, &[], Form("############")),
];

const fn known(
    rule: &'static Rule,
    scheme: &'static str,
    term: u32,
    also: &'static [&'static str],
    content: Content,
) -> Known {
    Known {
        rule,
        scheme,
        code: code(scheme.as_bytes()),
        term,
        terms: SCHEMED,
        also,
        prefixes: &[""],
        content,
    }
}

fn some_digits(r: &mut Random) -> String {
    let n = 1 + r.below(20);
    figure(r, n, 1, open::gln)
}

fn is_digits(text: &str) -> bool {
    open::all_digits(&open::normalize_space(text))
}

fn is_italian(text: &str) -> bool {
    let text = open::normalize_space(text);
    text.len() == 13 && text.get(2..).is_some_and(open::all_digits)
}

impl Known {
    /// The digits of the published name: 40 of `PEPPOL-COMMON-R040`, 562 of `PEPPOL-COMMON-R056-2`.
    pub fn number(&self) -> u32 {
        let name = &self.rule.id.0["PEPPOL-COMMON-R".len()..];
        let digits = name.bytes().filter(u8::is_ascii_digit);
        digits.fold(0, |number, d| 10 * number + u32::from(d - b'0'))
    }

    pub fn severity(&self) -> u32 {
        match self.rule.severity {
            Severity::Fatal => 1,
            Severity::Warning => 2,
        }
    }

    /// A content that the rule accepts.
    pub fn made(&self, r: &mut Random) -> String {
        match self.content {
            Form(form) => spelled(r, form),
            Figure(digits, width, accepts) => figure(r, digits, width, accepts),
            By(made, _) => made(r),
        }
    }

    /// Whether a text that is refused has the form, so that the check figure is wrong.
    pub fn has_form(&self, text: &str) -> bool {
        match self.content {
            Form(_) => false,
            Figure(digits, ..) => open::n_digits(text, digits),
            By(_, has_form) => has_form(text),
        }
    }

    pub fn outcomes(&self) -> Vec<&'static str> {
        [&OF_EVERY_RULE, self.also].concat()
    }
}

/// The place of the rule that reads a field.
pub fn at(scheme: &[u8], term: u32) -> Option<usize> {
    let code = code(scheme);
    KNOWN
        .iter()
        .position(|known| (known.code == code || known.code == 0) && known.terms.contains(&term))
}

/// A scheme's four bytes as one number, by which it is found for every content and rule; 0 where they are not four.
const fn code(scheme: &[u8]) -> u32 {
    match *scheme {
        [a, b, c, d] => u32::from_be_bytes([a, b, c, d]),
        _ => 0,
    }
}

/// The rules by their numbers.
pub static BY_NUMBER: LazyLock<Vec<&Known>> = LazyLock::new(|| {
    let mut rules: Vec<_> = KNOWN.iter().collect();
    rules.sort_by_key(|known| known.number());
    rules
});

/// A content that the rule of a scheme accepts; for other schemes one that some rule accepts.
pub fn accepted_by(r: &mut Random, scheme: &[u8]) -> String {
    match KNOWN.iter().find(|known| known.scheme.as_bytes() == scheme) {
        Some(known) => known.made(r),
        None => accepted(r),
    }
}

/// A content made for the rule of a scheme: accepted, with a slip of the hand, or zeros.
pub fn made_for(r: &mut Random, scheme: &[u8]) -> Vec<u8> {
    if r.one_in(40) {
        return vec![b'0'; 8 + r.below(4)];
    }
    let mut content = accepted_by(r, scheme).into_bytes();
    if r.one_in(2) {
        slip(r, &mut content);
    }
    content
}
