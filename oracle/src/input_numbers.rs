//! Bodies to complete and numbers whose corrections are listed.

use crate::corrections::{FIVE, Five, room_for};
use crate::fields::near_miss;
use crate::known::accepted_by;
use crate::library::AREA;
use crate::points::WHITE;
use crate::random::Random;

pub fn body(r: &mut Random, five: &Five) -> Vec<u8> {
    digits(r, five.body)
}

/// Digits at random, or an accepted number with no, one or two slips; now and then with white around it, up to past the limit.
pub fn number(r: &mut Random, five: &Five) -> Vec<u8> {
    if r.one_in(2) {
        return digits(r, five.number);
    }
    let mut number = accepted_by(r, five.scheme.as_bytes()).into_bytes();
    for _ in 0..r.below(3) {
        let at = r.below(number.len());
        match r.below(3) {
            0 if at + 1 < number.len() => number.swap(at, at + 1),
            _ => number[at] = b'0' + r.below(10) as u8,
        }
    }
    if r.one_in(10) {
        let white = r.among(&WHITE).to_string();
        let end = if r.one_in(2) { 0 } else { number.len() };
        number.splice(end..end, white.bytes());
    }
    if r.one_in(40) {
        number.resize(AREA - 2 + r.below(4), b' ');
    }
    number
}

/// Around the room that a list of n digits needs; now and then far less.
pub fn room(r: &mut Random, n: usize) -> usize {
    let required = room_for(n.clamp(1, 21));
    match r.below(16) {
        0 => r.below(required),
        1..=2 => required - 1,
        3..=5 => required,
        _ => required + r.below(40),
    }
}

/// Digits within the bounds; now and then mostly zeros, or with a byte changed, too many or too few.
fn digits(r: &mut Random, (least, most): (usize, usize)) -> Vec<u8> {
    let n = least + r.below(most - least + 1);
    let zeros = if r.one_in(10) { 7 } else { 0 };
    let digit = |r: &mut Random| match r.below(zeros + 1) {
        0 => b'0' + r.below(10) as u8,
        _ => b'0',
    };
    let mut digits: Vec<u8> = (0..n).map(|_| digit(r)).collect();
    if r.one_in(16) {
        near_miss(r, &mut digits);
    }
    digits
}

/// The numbers of every run: of 0088 all of one to five digits, of each other scheme those with zeros before the last four digits.
const SHORT: [u64; 5] = [10, 100, 1000, 10_000, 100_000];
const LAST_FOUR: u64 = 10_000;

/// How many they are.
pub fn count() -> u64 {
    SHORT.iter().sum::<u64>() + LAST_FOUR * (FIVE.len() as u64 - 1)
}

/// The scheme at a place of them, the number and how many digits it has.
pub fn number_at(mut i: u64) -> (&'static Five, u64, usize) {
    for (width, all) in (1..).zip(SHORT) {
        if i < all {
            return (&FIVE[0], i, width);
        }
        i -= all;
    }
    let five = &FIVE[1 + (i / LAST_FOUR) as usize];
    (five, i % LAST_FOUR, five.number.1)
}
