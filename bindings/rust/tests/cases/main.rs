//! Every case of bindings/cases.txt, which holds what docs/RULES.md says.

mod call;
mod notation;

use std::collections::BTreeSet;

const CASES: &str = include_str!("../../../cases.txt");

#[test]
fn every_case_has_the_answer_of_document_01() {
    let mut wrong = Vec::new();
    for case in notation::cases(CASES) {
        let got = call::answer(case.function, &case.arguments);
        if got != case.answer {
            wrong.push(format!("{}\n    got {}", case.line, shown(&got)));
        }
    }
    assert!(
        wrong.is_empty(),
        "{} wrong:\n{}",
        wrong.len(),
        wrong.join("\n")
    );
}

#[test]
fn every_function_has_cases() {
    let cases = notation::cases(CASES);
    let tested: BTreeSet<_> = cases.iter().map(|case| case.function).collect();
    assert_eq!(tested, BTreeSet::from(call::FUNCTIONS));
}

fn shown(words: &[Vec<u8>]) -> String {
    let words: Vec<_> = words.iter().map(|w| w.escape_ascii().to_string()).collect();
    words.join(" ")
}
