//! Lines and texts of lines, as they come and damaged.

use crate::fields::near_miss;
use crate::identifiers::GOOD;
use crate::inputs;
use crate::known::{KNOWN, TERMS, accepted_by, made_for};
use crate::lines::{HEAD, READ};
use crate::random::Random;

/// The lines of every run.
pub fn every_line() -> Vec<Vec<u8>> {
    let mut lines = Vec::new();
    every_head(&mut lines);
    bytes_changed(b"0088 34 17", &mut lines);
    for length in 0..2 * READ {
        let mut line = b"0088 34 17".to_vec();
        line.resize(length, b' ');
        lines.push(line);
    }
    lines
}

/// Every scheme of a rule with every term and contents of every form.
fn every_head(lines: &mut Vec<Vec<u8>>) {
    for scheme in KNOWN.iter().map(|known| known.scheme) {
        for term in 0..100 {
            let contents = GOOD.iter().chain(&["", "IT", "NL", "71"]);
            lines.extend(contents.map(|s| format!("{scheme:<4} {term:02} {s}").into_bytes()));
        }
    }
}

/// Every byte at every place of a line, in the place of the one that stands there and before it.
fn bytes_changed(line: &[u8], lines: &mut Vec<Vec<u8>>) {
    for at in 0..line.len() {
        for b in 0..=0xff {
            lines.push([&line[..at], &[b], &line[at + 1..]].concat());
            lines.push([&line[..at], &[b], &line[at..]].concat());
        }
    }
}

/// The texts of every run: up to four lines of a few, each text with and without its last newline.
pub fn every_text() -> Vec<Vec<u8>> {
    let lines = ["", "0088 34 17", "0088 34 71", "0060 34 x", "0088 3417"];
    let mut texts = vec![Vec::new()];
    let mut from = 0;
    for _ in 0..4 {
        let longer: Vec<_> = texts[from..]
            .iter()
            .flat_map(|text| lines.map(|line| [text, line.as_bytes(), b"\n"].concat()))
            .collect();
        from = texts.len();
        texts.extend(longer);
    }
    let cut: Vec<_> = texts[1..]
        .iter()
        .map(|t| t[..t.len() - 1].to_vec())
        .collect();
    texts.extend(cut);
    texts
}

/// A line without its newline; a content that has one is left as it is.
pub fn line(r: &mut Random, line: &mut Vec<u8>) {
    line.clear();
    match r.below(16) {
        0 => inputs::random(r, line),
        1 => drop(head(r, line)),
        2 => long(r, line),
        3..=4 => {
            whole(r, line);
            line.truncate(r.below(2 * HEAD));
        }
        5..=6 => {
            whole(r, line);
            damage_head(r, line);
        }
        _ => whole(r, line),
    }
}

/// Fewer than `most` lines, the last one with or without its newline.
pub fn text(r: &mut Random, most: usize, text: &mut Vec<u8>) {
    text.clear();
    let mut next = Vec::new();
    for _ in 0..r.below(most) {
        if !r.one_in(12) {
            line(r, &mut next);
            text.extend(&next);
        }
        text.push(b'\n');
    }
    if r.one_in(2) {
        text.pop();
    }
}

/// A head, and the scheme in it.
fn head(r: &mut Random, line: &mut Vec<u8>) -> &'static str {
    let scheme = match r.among(&KNOWN).scheme {
        "" => "0060",
        scheme => scheme,
    };
    let term = match r.below(8) {
        0 => r.below(100) as u32,
        _ => *r.among(&TERMS),
    };
    line.extend(format!("{scheme} {term:02} ").bytes());
    scheme
}

/// A head and a content, mostly one that is made for the scheme.
fn whole(r: &mut Random, line: &mut Vec<u8>) {
    let scheme = head(r, line);
    let mut content = Vec::new();
    if r.one_in(4) {
        inputs::random(r, &mut content);
    } else {
        content = made_for(r, scheme.as_bytes());
    }
    line.extend(content);
}

/// A byte of the head replaced, left out or too many.
fn damage_head(r: &mut Random, line: &mut Vec<u8>) {
    let mut head: Vec<u8> = line.drain(..HEAD).collect();
    near_miss(r, &mut head);
    line.splice(0..0, head);
}

/// A content around the length that is read, of blanks and a number, so that what is read decides; sometimes far longer.
fn long(r: &mut Random, line: &mut Vec<u8>) {
    let scheme = head(r, line);
    let number = accepted_by(r, scheme.as_bytes());
    let length = match r.below(8) {
        0 => 2 * READ + r.below(9000),
        _ => READ - 4 + r.below(8),
    };
    let blanks = vec![b' '; length.saturating_sub(number.len())];
    if r.one_in(2) {
        line.extend(number.bytes());
        line.extend(blanks);
    } else {
        line.extend(blanks);
        line.extend(number.bytes());
    }
    if r.one_in(8) {
        let at = r.below(line.len());
        line[at] = 0xff;
    }
}
