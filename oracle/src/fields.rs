//! Schemes and terms: those that a rule reads, near misses and any others.

use crate::identifiers::GOOD;
use crate::known::{KNOWN, TERMS};
use crate::library::AREA;
use crate::points::BYTES;
use crate::random::Random;

/// Codes of four digits that no rule is about: successors, withdrawn ones, and others of the lists.
const OTHERS: [&str; 20] = [
    "0002", "0060", "0196", "0204", "0130", "9901", "9902", "9904", "9905", "9906", "9917", "9921",
    "9954", "9955", "9956", "9958", "9930", "9957", "0087", "9943",
];

/// A code with a byte too many, too few, or other than it should be.
const NEAR: [&[u8]; 14] = [
    b"",
    b"0",
    b"008",
    b"088",
    b"00888",
    b"0088 ",
    b" 0088",
    b"0088\0",
    b"\x000088",
    b"0O88",
    b"008\xff",
    b"\xc2\xa0088",
    "００８８".as_bytes(),
    b"99070",
];

/// Every scheme of a rule, other codes, near misses, and long ones.
pub fn schemes() -> Vec<Vec<u8>> {
    let codes = KNOWN.iter().map(|known| known.scheme.as_bytes());
    let others = OTHERS.iter().map(|scheme| scheme.as_bytes());
    let long = ["0088".repeat(2500), format!("0088{}", " ".repeat(9996))];
    codes
        .chain(others)
        .chain(NEAR)
        .map(<[u8]>::to_vec)
        .chain(long.map(String::into_bytes))
        .collect()
}

/// Every code of four digits, and those that are a byte away from a rule's: replaced, too many or left out.
pub fn codes() -> Vec<Vec<u8>> {
    let digits = (0..10_000).map(|n| format!("{n:04}").into_bytes());
    let mut codes: Vec<_> = digits.collect();
    for known in &KNOWN {
        for at in 0..=known.scheme.len() {
            let (before, behind) = known.scheme.as_bytes().split_at(at);
            let rest = behind.get(1..).unwrap_or(behind);
            codes.push([before, rest].concat());
            for b in 0..=0xff {
                codes.push([before, &[b], behind].concat());
                codes.push([before, &[b], rest].concat());
            }
        }
    }
    codes
}

/// Contents to read at any field: of every form, of none, too long and not UTF-8.
pub fn contents() -> Vec<Vec<u8>> {
    let others = [&b""[..], b"IT", b"NL", b"\xff", b" 17", b"IT\xc3\xa9"];
    let long = [AREA, AREA + 1, 10_000].map(|n| vec![b'7'; n]);
    let good = GOOD.iter().map(|good| good.as_bytes());
    let short = good.chain(others).map(<[u8]>::to_vec);
    short.chain(long).collect()
}

/// Every term of two digits, and numbers of which a part is a term.
pub fn terms() -> Vec<u32> {
    let parts = TERMS.iter().flat_map(|&term| cut_short(term));
    let ends = [
        100,
        255,
        256,
        999,
        65535,
        65536,
        u32::MAX / 2,
        u32::MAX - 1,
        u32::MAX,
    ];
    (0..100).chain(parts).chain(ends).collect()
}

/// Numbers that are the term again in fewer bits or digits.
fn cut_short(term: u32) -> [u32; 5] {
    [
        term + 100,
        term + 256,
        term + 65536,
        term | 1 << 31,
        term.wrapping_neg(),
    ]
}

/// A scheme: mostly one of a rule.
pub fn scheme(r: &mut Random, scheme: &mut Vec<u8>) {
    scheme.clear();
    match r.below(20) {
        0..=11 => scheme.extend(r.among(&KNOWN).scheme.as_bytes()),
        12..=13 => scheme.extend(r.among(&OTHERS).as_bytes()),
        14 => scheme.extend(*r.among(&NEAR)),
        15 => (0..4).for_each(|_| scheme.push(b'0' + r.below(10) as u8)),
        16 => (0..r.below(9)).for_each(|_| scheme.push(r.byte())),
        _ => {
            scheme.extend(r.among(&KNOWN).scheme.as_bytes());
            near_miss(r, scheme);
        }
    }
}

/// A byte replaced, left out or too many.
pub fn near_miss(r: &mut Random, bytes: &mut Vec<u8>) {
    let at = r.below(bytes.len() + 1);
    match r.below(4) {
        0 => bytes.insert(at, *r.among(&BYTES)),
        1 if at < bytes.len() => drop(bytes.remove(at)),
        _ if at < bytes.len() => bytes[at] = *r.among(&BYTES),
        _ => bytes.push(r.byte()),
    }
}

/// The number of a term: mostly one that a rule reads.
pub fn term(r: &mut Random) -> u32 {
    match r.below(10) {
        0..=6 => *r.among(&TERMS),
        7 => r.below(100) as u32,
        8 => {
            let near = cut_short(*r.among(&TERMS));
            *r.among(&near)
        }
        _ => r.number() as u32,
    }
}
