//! The line program beside the Rust ones and `wc -l`: each reads the same file and writes to nowhere.

use std::fs::{self, File};
use std::process::{Command, Output, Stdio};
use std::time::Instant;

use oracle::library::Answer;

use crate::line_program;
use crate::lines::answer_of;
use crate::predicates::{plain, plain_row};
use crate::row::{Function, Row};
use crate::some_lines::some_lines;

/// How many lines are read in a round: enough that starting a program is a small part.
pub const LINES: usize = 500_000;

const FILE: &str = "target/bench/lines.txt";

/// The three line programs, and one that only counts the lines.
const COMMANDS: [&[&str]; 4] = [
    &["target/native/checklines"],
    &[BENCH, line_program::TUNED],
    &[BENCH, line_program::FORMATTED],
    &["wc", "-l"],
];
const BENCH: &str = concat!("target/bench/", env!("PLACE"), "/bench");

static CHECKLINES: Function = Function {
    name: "checklines",
    lean: "a Rust program over the plain `tally_line`, which writes its digits itself",
    plain: "the same by `writeln!`",
};

static COUNT: Function = Function {
    name: "checklines",
    lean: "`wc -l`, which only counts the lines",
    plain: "",
};

/// The nanoseconds for a line in each round, of each program.
#[derive(Default)]
pub struct Programs {
    times: [Vec<f64>; 4],
}

impl Programs {
    pub fn new(input: &[u8]) -> Self {
        fs::write(FILE, input).expect("the file of lines");
        let [ours, tuned, rust, _] = COMMANDS.map(|words| output(words).stdout);
        let agreed = said(&ours) == said(&rust);
        assert!(agreed && rust == tuned, "the line programs differ");
        Self::default()
    }

    /// Each program once; which one is first changes from round to round.
    pub fn round(&mut self, round: usize) {
        for turn in 0..COMMANDS.len() {
            let at = (turn + round) % COMMANDS.len();
            self.times[at].push(time(COMMANDS[at]) / LINES as f64);
        }
    }

    pub fn rows(&self) -> [Row; 2] {
        let [ours, tuned, rust, count] = &self.times;
        let of = format!("a line of {LINES}");
        let beside = format!("{of}, beside `wc -l`");
        [
            Row::new(&CHECKLINES, &of, ours, Some(tuned), Some(rust)),
            Row::new(&COUNT, &beside, ours, Some(count), None),
        ]
    }
}

fn command(words: &[&str]) -> Command {
    let input = File::open(FILE).expect("the file of lines");
    let mut command = Command::new(words[0]);
    command.args(&words[1..]).stdin(input);
    command
}

fn time(words: &[&str]) -> f64 {
    let mut command = command(words);
    command.stdout(Stdio::null());
    let began = Instant::now();
    let status = command.status();
    let taken = began.elapsed().as_nanos() as f64;
    assert!(status.is_ok_and(|s| s.success()), "{words:?} failed");
    taken
}

fn output(words: &[&str]) -> Output {
    let output = command(words).output();
    let output = output.unwrap_or_else(|e| panic!("{words:?}: {e}"));
    assert!(output.status.success(), "{words:?} failed");
    output
}

/// The answers and the rows of counts, as far as the predicates go.
fn said(output: &[u8]) -> (Vec<Answer>, Vec<Vec<u32>>) {
    let text = str::from_utf8(output).expect("digits");
    let numbers = |line: &str| {
        let words = line.split_whitespace();
        words.map(|word| word.parse().expect("a number")).collect()
    };
    let mut answers: Vec<Vec<u32>> = text.lines().map(numbers).collect();
    let counts = answers.split_off(LINES);
    let answers = answers.iter().map(|numbers| plain(answer_of(numbers)));
    (
        answers.collect(),
        counts.into_iter().map(plain_row).collect(),
    )
}

// ---- instructions

/// How many lines callgrind follows.
const FOLLOWED: usize = 20_000;

pub fn print_instructions() {
    let lines = some_lines(FOLLOWED);
    let [ours, tuned, rust, _] = COMMANDS.map(|words| {
        let start = instructions(words, b"");
        (instructions(words, &lines) - start) / FOLLOWED as f64
    });
    println!(
        "\nInstructions for a line, by callgrind over {FOLLOWED} lines: `checklines` {ours:.0}; lean {tuned:.0}, ratio {:.2}; \
         plain {rust:.0}, ratio {:.2}.",
        tuned / ours,
        rust / ours
    );
}

fn instructions(words: &[&str], input: &[u8]) -> f64 {
    fs::write(FILE, input).expect("the file of lines");
    let valgrind = [
        "valgrind",
        "--tool=callgrind",
        "--callgrind-out-file=/dev/null",
    ];
    let said = output(&[&valgrind, words].concat()).stderr;
    let said = String::from_utf8_lossy(&said);
    let count = said.split_once("Collected : ");
    let count = count.and_then(|(_, rest)| rest.split_whitespace().next());
    count
        .and_then(|n| n.parse().ok())
        .expect("callgrind's count")
}
