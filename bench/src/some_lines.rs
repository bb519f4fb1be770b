//! The lines that are timed, always the same ones: nine contents in ten bare digits, one content in twenty with a digit changed.

use oracle::library;
use oracle::random::Random;

/// A scheme and its form: `#` a digit, `&` a letter, any other character itself. A check figure is no part of the form.
type Form = (&'static str, &'static str);

const DIGITS: [Form; 11] = [
    ("0088", "############"),
    ("0088", "############"),
    ("0088", "############"),
    ("0192", "########"),
    ("0208", "########"),
    ("0007", "#########"),
    ("0151", "#########"),
    ("0096", "##########"),
    ("0106", "########"),
    ("0190", "####################"),
    ("0217", "############"),
];

const OTHERS: [Form; 7] = [
    ("0184", "DK########"),
    ("0201", "&&&###"),
    ("0210", "&&&&&&##&##&###&"),
    ("9907", "###########"),
    ("0211", "IT###########"),
    ("0198", "DK########"),
    ("9944", "NL#########B##"),
];

const TERMS: [u32; 8] = [34, 34, 49, 49, 29, 30, 46, 47];

/// So many lines, each with its newline.
pub fn some_lines(count: usize) -> Vec<u8> {
    let mut r = Random::new(7);
    let mut text = Vec::new();
    (0..count).for_each(|_| some_line(&mut r, &mut text));
    text
}

fn some_line(r: &mut Random, text: &mut Vec<u8>) {
    let others = r.one_in(10);
    let (scheme, form) = *r.among(if others { &OTHERS[..] } else { &DIGITS });
    let mut content = completed(scheme, spelled(r, form));
    if r.one_in(20) {
        let at = r.below(content.len());
        content[at] = digit(r);
    }
    if others && r.one_in(5) {
        content = [b" ", &content[..], "\u{a0}".as_bytes()].concat();
    }
    text.extend(format!("{scheme} {} ", r.among(&TERMS)).bytes());
    text.extend(content);
    text.push(b'\n');
}

fn digit(r: &mut Random) -> u8 {
    b'0' + r.below(10) as u8
}

fn spelled(r: &mut Random, form: &str) -> Vec<u8> {
    form.bytes()
        .map(|class| match class {
            b'#' => digit(r),
            b'&' => b'A' + r.below(26) as u8,
            b => b,
        })
        .collect()
}

/// The body with its check figure, where the scheme is one of the five and there is one.
fn completed(scheme: &str, body: Vec<u8>) -> Vec<u8> {
    let mut figure = [0; 2];
    let done = library::complete(scheme.as_bytes(), &body, &mut figure);
    let figure = &figure[..done.count];
    match scheme {
        "0151" => [figure, &body].concat(),
        _ => [&body, figure].concat(),
    }
}
