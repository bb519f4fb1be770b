//! A piece of work done by the library and in Rust, and its times.

use std::hint::black_box;
use std::time::Instant;

use crate::row::{Function, Row};

pub struct Case {
    pub function: &'static Function,
    /// What the function is called with.
    of: String,
    library: Side,
    lean: Option<Side>,
    plain: Option<Side>,
    /// How many answers a turn of the work gives: a time is that of one.
    answers: usize,
}

impl Case {
    pub fn new<A>(
        function: &'static Function,
        of: impl Into<String>,
        library: impl FnMut() -> A + 'static,
    ) -> Self {
        Self {
            function,
            of: of.into(),
            library: Side::new(library),
            lean: None,
            plain: None,
            answers: 1,
        }
    }

    pub fn lean<A>(mut self, rust: impl FnMut() -> A + 'static) -> Self {
        self.lean = Some(Side::new(rust));
        self
    }

    pub fn plain<A>(mut self, rust: impl FnMut() -> A + 'static) -> Self {
        self.plain = Some(Side::new(rust));
        self
    }

    pub fn answers(self, answers: usize) -> Self {
        Self { answers, ..self }
    }

    /// Each side once; which one is first changes from round to round.
    pub fn round(&mut self, round: usize) {
        let sides = [
            Some(&mut self.library),
            self.lean.as_mut(),
            self.plain.as_mut(),
        ];
        let mut sides: Vec<_> = sides.into_iter().flatten().collect();
        let first = round % sides.len();
        sides.rotate_left(first);
        sides.into_iter().for_each(Side::round);
    }

    pub fn row(&self) -> Row {
        let [lean, plain] =
            [&self.lean, &self.plain].map(|side| side.as_ref().map(|s| self.each(s)));
        let library = self.each(&self.library);
        Row::new(
            self.function,
            &self.of,
            &library,
            lean.as_deref(),
            plain.as_deref(),
        )
    }

    /// The times of one answer.
    fn each(&self, side: &Side) -> Vec<f64> {
        let answers = self.answers as f64;
        side.times.iter().map(|time| time / answers).collect()
    }
}

/// One side's work, how many turns of it a round takes, and the nanoseconds of a turn in each round.
struct Side {
    work: Box<dyn FnMut(u32)>,
    turns: u32,
    times: Vec<f64>,
}

impl Side {
    fn new<A>(mut once: impl FnMut() -> A + 'static) -> Self {
        let mut work = Box::new(move |turns| {
            for _ in 0..turns {
                black_box(once());
            }
        });
        Self {
            turns: turns(&mut work),
            work,
            times: Vec::new(),
        }
    }

    fn round(&mut self) {
        let time = time(&mut self.work, self.turns);
        self.times.push(time / f64::from(self.turns));
    }
}

/// How many turns take some tenths of a millisecond: short, so that few rounds are interrupted, and long beside the clock's own time.
fn turns(work: &mut dyn FnMut(u32)) -> u32 {
    let mut turns = 1;
    while (0..3).any(|_| time(work, turns) < 1e5) {
        turns *= 2;
    }
    turns
}

/// The nanoseconds of so many turns.
fn time(work: &mut dyn FnMut(u32), turns: u32) -> f64 {
    let began = Instant::now();
    work(turns);
    began.elapsed().as_nanos() as f64
}
