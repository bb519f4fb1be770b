//! A row of the table: what came of the rounds.

/// A function of the library, or its program, and what of the Rust stands beside it.
pub struct Function {
    pub name: &'static str,
    /// The Rust that is told what the library has to find out, or that is tuned.
    pub lean: &'static str,
    /// The Rust that begins with the same bytes and is written as it comes.
    pub plain: &'static str,
}

/// How many nanoseconds an answer takes, and what the Rust beside it is.
pub struct Row {
    pub function: String,
    /// What the function is called with.
    pub of: String,
    pub library: f64,
    pub lean: Rust,
    pub plain: Rust,
}

/// What of the Rust stands beside a function, and its times where it does.
pub struct Rust {
    pub what: String,
    pub times: Option<Times>,
}

/// The median of the times, and the quartiles of the rounds' ratios.
#[derive(Clone, Copy)]
pub struct Times {
    pub median: f64,
    pub low: f64,
    pub high: f64,
}

impl Row {
    /// The times of each side are round by round.
    pub fn new(
        function: &Function,
        of: &str,
        library: &[f64],
        lean: Option<&[f64]>,
        plain: Option<&[f64]>,
    ) -> Self {
        let rust = |what: &str, times: Option<&[f64]>| Rust {
            what: what.to_owned(),
            times: times.map(|times| Times::new(times, library)),
        };
        Self {
            function: function.name.to_owned(),
            of: of.to_owned(),
            library: part(library, 0.5),
            lean: rust(function.lean, lean),
            plain: rust(function.plain, plain),
        }
    }

    /// The row as one line, which `of_line` reads.
    pub fn line(&self) -> String {
        let own = [self.function.clone(), self.of.clone()];
        let words = own.into_iter().chain([self.library.to_string()]);
        let words = words.chain(self.lean.words()).chain(self.plain.words());
        words.collect::<Vec<_>>().join("\t")
    }

    pub fn of_line(line: &str) -> Self {
        let words: Vec<&str> = line.split('\t').collect();
        Self {
            function: words[0].to_owned(),
            of: words[1].to_owned(),
            library: number(words[2]),
            lean: Rust::of_words(&words[3..7]),
            plain: Rust::of_words(&words[7..11]),
        }
    }

    /// The row of two places: the mean of the times, and the widest of the ratios.
    pub fn joined(&self, other: &Self) -> Self {
        assert_eq!((&self.function, &self.of), (&other.function, &other.of));
        Self {
            function: self.function.clone(),
            of: self.of.clone(),
            library: mean(self.library, other.library),
            lean: self.lean.joined(&other.lean),
            plain: self.plain.joined(&other.plain),
        }
    }
}

impl Rust {
    fn words(&self) -> [String; 4] {
        let [median, low, high] = match self.times {
            Some(times) => [times.median, times.low, times.high].map(|n| n.to_string()),
            None => Default::default(),
        };
        [self.what.clone(), median, low, high]
    }

    fn of_words(words: &[&str]) -> Self {
        Self {
            what: words[0].to_owned(),
            times: (!words[1].is_empty()).then(|| Times {
                median: number(words[1]),
                low: number(words[2]),
                high: number(words[3]),
            }),
        }
    }

    fn joined(&self, other: &Self) -> Self {
        let times = self.times.zip(other.times);
        Self {
            what: self.what.clone(),
            times: times.map(|(here, there)| here.joined(there)),
        }
    }
}

impl Times {
    fn new(rust: &[f64], library: &[f64]) -> Self {
        let rounds = rust.iter().zip(library);
        let ratios: Vec<_> = rounds.map(|(rust, library)| rust / library).collect();
        Self {
            median: part(rust, 0.5),
            low: part(&ratios, 0.25),
            high: part(&ratios, 0.75),
        }
    }

    fn joined(self, other: Self) -> Self {
        Self {
            median: mean(self.median, other.median),
            low: self.low.min(other.low),
            high: self.high.max(other.high),
        }
    }
}

fn number(word: &str) -> f64 {
    word.parse().expect("a number")
}

fn mean(a: f64, b: f64) -> f64 {
    (a + b) / 2.0
}

/// The number below which such a share of the numbers lies.
fn part(numbers: &[f64], share: f64) -> f64 {
    let mut numbers = numbers.to_vec();
    numbers.sort_by(f64::total_cmp);
    numbers[((numbers.len() - 1) as f64 * share).round() as usize]
}
