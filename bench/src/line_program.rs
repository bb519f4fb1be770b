//! The line program in Rust, over the original's predicates: what `checklines` is timed beside.

use std::io::{self, BufRead, BufReader, BufWriter, StdoutLock, Write};

use oracle::library::Answer;

use crate::tally::Tally;

/// The words that ask for it.
pub const FORMATTED: &str = "lines";
pub const TUNED: &str = "lines-tuned";

type Output = BufWriter<StdoutLock<'static>>;

/// Answers the lines of the standard input, and writes the counts behind the answers.
pub fn run(write: impl Fn(&mut Output, Answer) -> io::Result<()>) {
    answer_all(write).expect("input and output");
}

fn answer_all(write: impl Fn(&mut Output, Answer) -> io::Result<()>) -> io::Result<()> {
    let mut input = BufReader::with_capacity(65536, io::stdin().lock());
    let mut output = BufWriter::with_capacity(65536, io::stdout().lock());
    let mut tally = Tally::new();
    let mut line = Vec::new();
    while input.read_until(b'\n', &mut line)? > 0 {
        if line.last() == Some(&b'\n') {
            line.pop();
        }
        write(&mut output, tally.answer_line(&line))?;
        line.clear();
    }
    tally.write(&mut output)?;
    output.flush()
}

pub fn write_formatted(output: &mut Output, a: Answer) -> io::Result<()> {
    writeln!(
        output,
        "{} {} {} {}",
        a.verdict, a.rule, a.severity, a.reason
    )
}

/// The formatting is a good part of the program's time. Here no number has more than three digits.
pub fn write_digits(output: &mut Output, a: Answer) -> io::Result<()> {
    let mut text = [0; 16];
    let mut end = 0;
    for number in [a.verdict, a.rule, a.severity, a.reason] {
        for unit in [100, 10, 1] {
            if unit <= number || unit == 1 {
                text[end] = b'0' + (number / unit % 10) as u8;
                end += 1;
            }
        }
        text[end] = b' ';
        end += 1;
    }
    text[end - 1] = b'\n';
    output.write_all(&text[..end])
}
