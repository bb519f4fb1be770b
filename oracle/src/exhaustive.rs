//! The contents that every run compares, whatever its count and seed.

use crate::identifiers::GOOD;
use crate::library::AREA;
use crate::points::{BYTES, EDGES, WHITE};

/// First bytes at the ends of RFC 3629's rows, and further bytes at the ends of its ranges.
const FIRST: [u8; 20] = [
    0x00, 0x7f, 0x80, 0xbf, 0xc0, 0xc1, 0xc2, 0xdf, 0xe0, 0xe1, 0xec, 0xed, 0xee, 0xef, 0xf0, 0xf1,
    0xf3, 0xf4, 0xf5, 0xff,
];
const FURTHER: [u8; 10] = [0x20, 0x7f, 0x80, 0x8f, 0x90, 0x9f, 0xa0, 0xbf, 0xc0, 0xff];

pub fn contents(each: &mut impl FnMut(&[u8])) {
    every_short(each);
    numbers(each);
    rows(each);
    white_pairs(each);
    lengths(each);
    long(each);
    prefixes(each);
    integers(each);
    accounts(each);
    GOOD.iter().for_each(|good| {
        each(good.as_bytes());
        bytes_changed(good.as_bytes(), each);
        points_changed(good, each);
        pairs_of_digits(good.as_bytes(), each);
    });
}

/// All of no byte, one and two; of three, those of the list.
fn every_short(each: &mut impl FnMut(&[u8])) {
    each(&[]);
    for a in 0..=0xff {
        each(&[a]);
        (0..=0xff).for_each(|b| each(&[a, b]));
    }
    for a in BYTES {
        for b in BYTES {
            BYTES.iter().for_each(|&c| each(&[a, b, c]));
        }
    }
}

/// All numbers of three to five digits.
fn numbers(each: &mut impl FnMut(&[u8])) {
    for width in 3..=5 {
        (0..10_usize.pow(width as u32)).for_each(|n| each(format!("{n:0width$}").as_bytes()));
    }
}

/// Sequences of four bytes along the edges of RFC 3629's table, whole and cut short.
fn rows(each: &mut impl FnMut(&[u8])) {
    for a in FIRST {
        for b in FURTHER {
            for c in FURTHER {
                each(&[b'a', a, b, c]);
                FURTHER.iter().for_each(|&d| each(&[a, b, c, d]));
            }
        }
    }
}

/// Every two white points, alone, within a text and at its ends.
fn white_pairs(each: &mut impl FnMut(&[u8])) {
    for v in WHITE {
        for w in WHITE {
            for text in [
                format!("{v}{w}"),
                format!("7{v}{w}x"),
                format!("{v}7{w}"),
                format!("{v}é x{w}"),
            ] {
                each(text.as_bytes());
            }
        }
    }
}

/// Every length up to past the limit: of one byte, of white, and of points of two to four bytes, the last one cut where it does not fit.
fn lengths(each: &mut impl FnMut(&[u8])) {
    for unit in ["7", " ", "7 ", "é", "\u{2003}", "😀", "\u{3000}x"] {
        let text = unit.repeat(AREA + 8);
        (0..AREA + 8).for_each(|n| each(&text.as_bytes()[..n]));
    }
}

/// Far past the limit, and good contents with white around them to the limit and past it; well-formed or ending within a point.
fn long(each: &mut impl FnMut(&[u8])) {
    for n in [2000, 4096, 10_000, 70_000] {
        each(&vec![b'7'; n]);
        each(&vec![0xff; n]);
    }
    for good in GOOD {
        for n in [AREA - 1, AREA, AREA + 1] {
            let blanks = " ".repeat(n - good.len());
            each(format!("{good}{blanks}").as_bytes());
            each(format!("{blanks}{good}").as_bytes());
            each(&[&format!("{good}{blanks}").as_bytes()[..n - 1], b"\xc3"].concat());
        }
    }
}

/// Every two bytes before what follows a prefix.
fn prefixes(each: &mut impl FnMut(&[u8])) {
    for rest in ["12345678903", "12345678", "123456789B12"] {
        let mut content = [b"..", rest.as_bytes()].concat();
        for a in 0..=0xff {
            for b in 0..=0xff {
                content[0] = a;
                content[1] = b;
                each(&content);
            }
        }
    }
}

/// What stands or nearly stands in an integer text, in both groups of a codice fiscale and before eight digits.
fn integers(each: &mut impl FnMut(&[u8])) {
    const NEARLY: [char; 12] = [
        '0', '9', '+', '-', ' ', '/', ':', 'A', 'é', '\u{2003}', '\u{85}', '\u{663}',
    ];
    for a in NEARLY {
        for b in NEARLY {
            for c in NEARLY {
                each(format!("{a}{b}{c}12345678").as_bytes());
                each(format!("12345678{a}{b}{c}").as_bytes());
                for d in NEARLY {
                    each(format!("ABCDEF{a}{b}G{c}{d}xyz3H").as_bytes());
                }
            }
        }
    }
}

/// The shortest IBANs: every pair, and every letter or digit behind it.
fn accounts(each: &mut impl FnMut(&[u8])) {
    let plain = (b'0'..=b'9').chain(b'A'..=b'Z').chain(b'a'..=b'z');
    for last in plain.map(char::from) {
        for country in ["AA", "aZ", "zz", "DE"] {
            (0..100).for_each(|pair| each(format!("{country}{pair:02}{last}").as_bytes()));
        }
    }
}

/// Every byte at every place of a good content, replaced and inserted; each one left out, and exchanged with the next.
fn bytes_changed(good: &[u8], each: &mut impl FnMut(&[u8])) {
    for at in 0..=good.len() {
        let (before, behind) = good.split_at(at);
        let mut more = [before, b".", behind].concat();
        for b in 0..=0xff {
            more[at] = b;
            each(&more);
        }
        let Some((_, behind)) = behind.split_first() else {
            continue;
        };
        each(&[before, behind].concat());
        let mut other = good.to_vec();
        for b in 0..=0xff {
            other[at] = b;
            each(&other);
        }
        if let [next, behind @ ..] = behind {
            each(&[before, &[*next, good[at]], behind].concat());
        }
    }
}

/// Every white point, and the points beside them, at every place of a good content: inserted, once and twice, and in a character's place.
fn points_changed(good: &str, each: &mut impl FnMut(&[u8])) {
    let places = good.char_indices().map(|(at, _)| at).chain([good.len()]);
    for at in places {
        let (before, behind) = good.split_at(at);
        let mut rest = behind.chars();
        rest.next();
        let rest = rest.as_str();
        for c in WHITE.into_iter().chain(EDGES) {
            each(format!("{before}{c}{behind}").as_bytes());
            each(format!("{before}{c}{c}{behind}").as_bytes());
            each(format!("{before}{c}{rest}").as_bytes());
        }
    }
}

/// Every pair of digits in the place of the first two, the third and fourth, and the last two.
fn pairs_of_digits(good: &[u8], each: &mut impl FnMut(&[u8])) {
    let n = good.len();
    for at in [0, 2, n.saturating_sub(2)] {
        let mut content = good.to_vec();
        for pair in 0..100 {
            if let Some(two) = content.get_mut(at..at + 2) {
                two.copy_from_slice(&[b'0' + pair / 10, b'0' + pair % 10]);
                each(&content);
            }
        }
    }
}
