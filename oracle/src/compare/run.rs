//! All the inputs of a run: those of every run, and the random ones.

use std::ops::Range;

use oracle::known::{KNOWN, made_for};
use oracle::random::Random;
use oracle::{exhaustive, input_lines, input_numbers, inputs};

use super::report::Report;
use super::work::{Part, run};
use super::{contents, corrections, fields, lines};

/// A random content is compared by every function that reads one. The other functions cost more: each has one input for so many contents.
const FIELD: u64 = 2;
const LINE: u64 = 2;
const CORRECTION: u64 = 16;
const TEXT: u64 = 32;

/// How many random contents a block has.
const BLOCK: u64 = 5000;

/// The report, and how many contents there were.
pub fn compare(count: u64, seed: u64) -> (Report, u64) {
    let all = Contents::every();
    let parts = [
        over(contents::numbers(), 100_000, contents::white_points),
        Part::new(contents::POINTS, BLOCK, contents::every_point),
        Part::new(all.count(), BLOCK, |range, report| all.run(range, report)),
        over(oracle::fields::contents(), 1, fields::every),
        over(oracle::fields::codes(), BLOCK, fields::codes),
        over(oracle::fields::contents(), 1, corrections::any),
        Part::new(input_numbers::count(), BLOCK, corrections::every),
        over(input_lines::every_line(), BLOCK, lines::every_line),
        over(input_lines::every_text(), 100, lines::every_text),
        Part::new(count, BLOCK, |range, report| random(seed, range, report)),
    ];
    let total = contents::POINTS + all.count() + count;
    (run(&parts), total)
}

/// The part of the work that a list is.
fn over<T: Send + Sync + 'static>(
    list: Vec<T>,
    block: u64,
    run: fn(&[T], &mut Report),
) -> Part<'static> {
    Part::new(list.len() as u64, block, move |range, report| {
        run(&list[range.start as usize..range.end as usize], report)
    })
}

/// Contents one after another, and where each ends.
struct Contents {
    bytes: Vec<u8>,
    ends: Vec<usize>,
}

impl Contents {
    fn every() -> Self {
        let mut all = Self {
            bytes: Vec::new(),
            ends: vec![0],
        };
        exhaustive::contents(&mut |content| {
            all.bytes.extend(content);
            all.ends.push(all.bytes.len());
        });
        all
    }

    fn count(&self) -> u64 {
        self.ends.len() as u64 - 1
    }

    fn run(&self, range: Range<u64>, report: &mut Report) {
        for i in range {
            let at = i as usize;
            let content = &self.bytes[self.ends[at]..self.ends[at + 1]];
            contents::compare(report, content, i % 16 == 0);
        }
    }
}

fn random(seed: u64, range: Range<u64>, report: &mut Report) {
    let mut r = Random::of_block(seed, range.start / BLOCK);
    let mut content = Vec::new();
    for i in range {
        draw(&mut r, &mut content);
        contents::compare(report, &content, r.one_in(16));
        if i % FIELD == 0 {
            fields::random(&mut r, report, &content);
        }
        if i % LINE == 1 {
            lines::random_line(&mut r, report);
        }
        if i % CORRECTION == 0 {
            corrections::random(&mut r, report, &content);
        }
        if i % TEXT == 0 {
            lines::random_text(&mut r, report);
        }
    }
}

/// A random content, now and then one made for a rule. Long ones cost more and tell less: three of four are drawn again.
fn draw(r: &mut Random, content: &mut Vec<u8>) {
    if r.one_in(16) {
        let scheme = r.among(&KNOWN).scheme;
        *content = made_for(r, scheme.as_bytes());
        return;
    }
    inputs::random(r, content);
    if 100 < content.len() && !r.one_in(4) {
        inputs::random(r, content);
    }
}
