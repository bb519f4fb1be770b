//! Contents: the oracle's random ones, and good ones that are damaged or filled up to the limit.

use oracle::inputs;
use oracle::points::WHITE;
use oracle::random::Random;

/// Nearly what a rule reads: digits of other scripts, a letter, points that look white, bytes beside the digits and letters, signs, halves of a character.
const STRANGERS: [&[u8]; 16] = [
    "\u{ff17}".as_bytes(),
    "\u{663}".as_bytes(),
    "\u{1d7ce}".as_bytes(),
    "\u{e9}".as_bytes(),
    "\u{200b}".as_bytes(),
    "\u{feff}".as_bytes(),
    b"/",
    b":",
    b"@",
    b"[",
    b"`",
    b"{",
    b"+",
    b"-",
    b"\xc2",
    b"\x80",
];

/// A random content, or a good one with something done to it.
pub fn content(r: &mut Random, good: &[Vec<u8>]) -> Vec<u8> {
    if good.is_empty() || r.one_in(4) {
        return random(r);
    }
    let mut content = r.among(good).clone();
    match r.below(12) {
        0 => {}
        1 => fill_up(r, &mut content),
        2..=4 => add_white(r, &mut content),
        _ => (0..1 + r.below(2)).for_each(|_| damage(r, &mut content)),
    }
    content
}

/// A random content, now and then as long as the limit or longer: for what is answered before a content is read.
pub fn any(r: &mut Random) -> Vec<u8> {
    let mut content = random(r);
    if r.one_in(20) {
        fill_up(r, &mut content);
    }
    content
}

/// A random content that is not long.
fn random(r: &mut Random) -> Vec<u8> {
    if r.one_in(50) {
        return zeros(r);
    }
    let mut content = Vec::new();
    inputs::random(r, &mut content);
    if 1024 <= content.len() {
        content.truncate(24);
    }
    content
}

/// Zeros, mostly as many as 0192 has digits.
fn zeros(r: &mut Random) -> Vec<u8> {
    let n = if r.one_in(2) { 9 } else { 1 + r.below(20) };
    let mut content = vec![b'0'; n];
    if r.one_in(2) {
        add_white(r, &mut content);
    }
    content
}

/// Blanks before or behind, now and then nines, to the limit or one byte more; then it may end in a byte that is not UTF-8.
fn fill_up(r: &mut Random, content: &mut Vec<u8>) {
    let length = 1024 + r.below(2);
    let filler = if r.one_in(4) { b'9' } else { b' ' };
    let at = if r.one_in(2) { 0 } else { content.len() };
    content.splice(at..at, vec![filler; length - content.len()]);
    if length == 1025 && r.one_in(2) {
        content[1024] = 0xff;
    }
}

/// A white point at an end or at a place within.
fn add_white(r: &mut Random, content: &mut Vec<u8>) {
    let at = match r.below(3) {
        0 => 0,
        1 => content.len(),
        _ => r.below(content.len() + 1),
    };
    let white = r.among(&WHITE).to_string();
    content.splice(at..at, white.bytes());
}

/// A slip of the hand, or a stranger.
pub fn damage(r: &mut Random, content: &mut Vec<u8>) {
    if content.is_empty() {
        return;
    }
    let at = r.below(content.len());
    match r.below(8) {
        0..=2 => content[at] = b'0' + r.below(10) as u8,
        3 if at + 1 < content.len() => content.swap(at, at + 1),
        4 => drop(content.remove(at)),
        5 => content.insert(at, content[at]),
        _ => drop(content.splice(at..at + 1, r.among(&STRANGERS).iter().copied())),
    }
}
