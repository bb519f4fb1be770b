//! Random contents.

use crate::identifiers::near;
use crate::library::AREA;
use crate::points::{BYTES, EDGES, WHITE};
use crate::random::Random;

/// A random content.
pub fn random(r: &mut Random, content: &mut Vec<u8>) {
    content.clear();
    match r.below(100) {
        0..=14 => text(r, content, 24),
        15..=54 => near(r, content),
        55..=64 => identifier(r, content),
        65..=74 => (0..r.below(12)).for_each(|_| content.push(r.byte())),
        75..=94 => text(r, content, 40),
        95..=98 => text(r, content, 200),
        _ => near_the_limit(r, content),
    }
    if r.one_in(4) {
        damage(r, content);
    }
}

/// Well-formed text of fewer than `most` points.
fn text(r: &mut Random, content: &mut Vec<u8>, most: usize) {
    let white = 2 + r.below(12);
    for _ in 0..r.below(most) {
        let c = point(r, white);
        push(content, c);
    }
}

/// A point, which is white once in `white` times.
fn point(r: &mut Random, white: usize) -> char {
    if r.one_in(white) {
        return *r.among(&WHITE);
    }
    match r.below(8) {
        0 => *r.among(&EDGES),
        1 => char::from_u32(r.below(0x11_0000) as u32).unwrap_or('\u{fffd}'),
        2..=4 => char::from(b'0' + r.below(10) as u8),
        5 => char::from(b'A' + r.below(26) as u8),
        _ => char::from(b' ' + r.below(95) as u8),
    }
}

/// Digits and letters in groups, as people write them.
fn identifier(r: &mut Random, content: &mut Vec<u8>) {
    let group = 1 + r.below(14);
    let white = *r.among(&WHITE);
    for i in 0..1 + r.below(36) {
        if i % group == 0 && r.one_in(2) {
            push(content, if r.one_in(3) { white } else { ' ' });
        }
        content.push(if r.one_in(9) {
            b'A' + r.below(26) as u8
        } else {
            b'0' + r.below(10) as u8
        });
    }
}

/// Well-formed text whose length is within a few bytes of the limit.
fn near_the_limit(r: &mut Random, content: &mut Vec<u8>) {
    let length = AREA - 3 + r.below(7);
    let white = 2 + r.below(200);
    while content.len() + 4 <= length {
        let c = point(r, white);
        push(content, c);
    }
    content.resize(length.max(content.len()), b'7');
}

/// Replaces, inserts, removes or cuts off a few bytes.
fn damage(r: &mut Random, content: &mut Vec<u8>) {
    for _ in 0..1 + r.below(3) {
        let at = r.below(content.len() + 1);
        let b = if r.one_in(2) {
            r.byte()
        } else {
            *r.among(&BYTES)
        };
        match r.below(4) {
            0 => content.insert(at, b),
            1 => content.truncate(at),
            _ if at == content.len() => content.push(b),
            2 => content[at] = b,
            _ => drop(content.remove(at)),
        }
    }
}

fn push(content: &mut Vec<u8>, c: char) {
    content.extend_from_slice(c.encode_utf8(&mut [0; 4]).as_bytes());
}
