//! Completing and listing.

use std::ops::Range;

use oracle::corrections::{Complete, FIVE, List, room_for};
use oracle::functions::{Function, Input};
use oracle::random::Random;
use oracle::{fields, input_numbers};

use super::report::Report;

fn compare<F: Function>(report: &mut Report, scheme: &[u8], content: &[u8], room: usize) {
    report.compare::<F>(Input {
        scheme,
        number: room as u64,
        ..Input::of(content)
    });
}

/// A random completion and a random list of one scheme; now and then of a content, by that scheme or any.
pub fn random(r: &mut Random, report: &mut Report, content: &[u8]) {
    let five = r.among(&FIVE);
    let (body, number) = (input_numbers::body(r, five), input_numbers::number(r, five));
    let (room, rooms) = (r.below(5), input_numbers::room(r, number.len()));
    if r.one_in(8) {
        let mut scheme = five.scheme.as_bytes().to_vec();
        if r.one_in(2) {
            fields::scheme(r, &mut scheme);
        }
        compare::<Complete>(report, &scheme, content, room);
        return compare::<List>(report, &scheme, content, rooms);
    }
    compare::<Complete>(report, five.scheme.as_bytes(), &body, room);
    compare::<List>(report, five.scheme.as_bytes(), &number, rooms);
}

/// Contents with any scheme and with more and less room.
pub fn any(contents: &[Vec<u8>], report: &mut Report) {
    for content in contents {
        for scheme in fields::schemes() {
            for room in [0, 1, 2, 3, room_for(9), room_for(20)] {
                compare::<Complete>(report, &scheme, content, room);
                compare::<List>(report, &scheme, content, room);
            }
        }
    }
}

/// The numbers of a range, each as a body to complete and as a number whose corrections are listed.
pub fn every(range: Range<u64>, report: &mut Report) {
    for i in range {
        let (five, n, width) = input_numbers::number_at(i);
        let scheme = five.scheme.as_bytes();
        let body = format!("{n:0width$}", width = width.min(five.body.1));
        compare::<Complete>(report, scheme, body.as_bytes(), 2);
        let number = format!("{n:0width$}");
        compare::<List>(report, scheme, number.as_bytes(), room_for(width));
    }
}
