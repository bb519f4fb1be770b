//! The counts of tallies: fresh ones, ones about the limit, and ones that no lines make.

use crate::counts::LIMIT;
use crate::library::TALLY_COUNTS;
use crate::random::Random;

/// The tallies of every run: fresh, with a few lines left to the limit, full, and with every count at its end.
pub fn every() -> Vec<Vec<u32>> {
    let left = (0..=3).map(|left| vec![u32::MAX - left]);
    let over = [vec![u32::MAX, 1], vec![u32::MAX; TALLY_COUNTS]];
    [vec![]].into_iter().chain(left).chain(over).collect()
}

/// Random counts.
pub fn random(r: &mut Random) -> Vec<u32> {
    match r.below(10) {
        0 => vec![],
        1 => counts(|| r.below(1000) as u32),
        2..=5 => about_the_limit(r),
        6 => past_32_bits(r),
        7 => counts(|| r.number() as u32),
        _ => one(r),
    }
}

fn counts(count: impl FnMut() -> u32) -> Vec<u32> {
    std::iter::repeat_with(count).take(TALLY_COUNTS).collect()
}

/// Mostly with room for no more lines than a text has.
fn about_the_limit(r: &mut Random) -> Vec<u32> {
    let most = *r.among(&[4, 40]);
    let left = r.below(most);
    let over = if r.one_in(4) { r.below(4) } else { 0 };
    adding_up_to(r, LIMIT - left as u64 + over as u64)
}

/// A sum whose low 32 bits have room.
fn past_32_bits(r: &mut Random) -> Vec<u32> {
    let high = 1 + r.below(TALLY_COUNTS - 1) as u64;
    let low = r.below(1000) as u64;
    adding_up_to(r, (high << 32) + low)
}

/// One count at its end or just below.
fn one(r: &mut Random) -> Vec<u32> {
    let mut counts = vec![0; TALLY_COUNTS];
    counts[r.below(TALLY_COUNTS)] = u32::MAX - r.below(3) as u32;
    counts
}

/// A share of what is left for one count after another, at random.
fn adding_up_to(r: &mut Random, sum: u64) -> Vec<u32> {
    let mut counts = vec![0; TALLY_COUNTS];
    let mut left = sum;
    while 0 < left {
        let count = &mut counts[r.below(TALLY_COUNTS)];
        let most = left.min(u64::from(u32::MAX - *count));
        let share = match r.below(4) {
            0 => most,
            _ => r.below(most as usize + 1) as u64,
        };
        *count += share as u32;
        left -= share;
    }
    counts
}
