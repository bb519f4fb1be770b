//! How far a run is, on standard error while it runs.

use std::io::{IsTerminal, Write, stderr};
use std::sync::atomic::{AtomicU64, Ordering};
use std::thread::sleep;
use std::time::{Duration, Instant};

pub struct Progress {
    total: u64,
    done: AtomicU64,
}

impl Progress {
    pub fn new(total: u64) -> Self {
        Self {
            total,
            done: AtomicU64::new(0),
        }
    }

    pub fn add(&self, inputs: u64) {
        self.done.fetch_add(inputs, Ordering::Relaxed);
    }

    /// Shows it until the work has ended: on a terminal over and over in one line, elsewhere a line now and then.
    pub fn watch(&self, has_ended: impl Fn() -> bool) {
        let terminal = stderr().is_terminal();
        let pause = Duration::from_millis(if terminal { 1000 } else { 15_000 });
        let mut speed = Speed::new();
        while !has_ended() {
            sleep(Duration::from_millis(20));
            if speed.since.elapsed() < pause {
                continue;
            }
            let line = self.line(&mut speed);
            if terminal {
                eprint!("\r\x1b[K{line}");
                let _ = stderr().flush();
            } else {
                eprintln!("{line}");
            }
        }
        if terminal {
            eprint!("\r\x1b[K");
        }
    }

    fn line(&self, speed: &mut Speed) -> String {
        let done = self.done.load(Ordering::Relaxed);
        let rate = speed.at(done);
        let left = (self.total - done) as f64 / rate.max(1.0);
        let total = self.total;
        format!("{done} of {total} inputs, {rate:.0} a second, {left:.0} seconds left")
    }
}

/// Inputs a second. The parts of the work differ in it, so that the last moments count most.
struct Speed {
    since: Instant,
    done: u64,
    rate: Option<f64>,
}

impl Speed {
    fn new() -> Self {
        Self {
            since: Instant::now(),
            done: 0,
            rate: None,
        }
    }

    fn at(&mut self, done: u64) -> f64 {
        let now = (done - self.done) as f64 / self.since.elapsed().as_secs_f64();
        let rate = self.rate.map_or(now, |before| (before + now) / 2.0);
        *self = Self {
            since: Instant::now(),
            done,
            rate: Some(rate),
        };
        rate
    }
}
