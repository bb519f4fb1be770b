//! The work of a run, in blocks that threads take one after another.

use std::ops::Range;
use std::sync::atomic::{AtomicUsize, Ordering};
use std::thread::{available_parallelism, scope};

use super::progress::Progress;
use super::report::Report;

/// Inputs that are numbered from 0, and what compares those of a range. What comes of a block must hang on its range alone.
pub struct Part<'a> {
    count: u64,
    block: u64,
    run: Box<dyn Fn(Range<u64>, &mut Report) + Sync + 'a>,
}

impl<'a> Part<'a> {
    /// So many inputs, in blocks of so many.
    pub fn new(count: u64, block: u64, run: impl Fn(Range<u64>, &mut Report) + Sync + 'a) -> Self {
        Self {
            count,
            block,
            run: Box::new(run),
        }
    }

    fn blocks(&self) -> impl Iterator<Item = (&Self, Range<u64>)> {
        let starts = (0..self.count).step_by(self.block as usize);
        starts.map(move |start| (self, start..self.count.min(start + self.block)))
    }
}

/// Runs every block of every part and joins what the threads counted, which is the same however they took turns.
pub fn run(parts: &[Part<'_>]) -> Report {
    let blocks: Vec<_> = parts.iter().flat_map(Part::blocks).collect();
    let progress = Progress::new(parts.iter().map(|part| part.count).sum());
    let next = AtomicUsize::new(0);
    let worker = || {
        let mut report = Report::new();
        while let Some((part, range)) = blocks.get(next.fetch_add(1, Ordering::Relaxed)) {
            report.begin_block();
            (part.run)(range.clone(), &mut report);
            progress.add(range.end - range.start);
        }
        report
    };
    let mut joined = Report::new();
    scope(|scope| {
        let workers: Vec<_> = (0..jobs()).map(|_| scope.spawn(worker)).collect();
        progress.watch(|| workers.iter().all(|worker| worker.is_finished()));
        for worker in workers {
            joined.join(worker.join().expect("a thread of the comparison"));
        }
    });
    joined
}

/// As many threads as `RT_JOBS` says, or as the machine has processors.
fn jobs() -> usize {
    match std::env::var("RT_JOBS") {
        Ok(jobs) => jobs.parse().expect("a number in RT_JOBS"),
        Err(_) => available_parallelism().map_or(1, usize::from),
    }
}
