//! One line, and the lines of a text: answered, and also counted.

use oracle::counts::{TallyLine, TallyLines};
use oracle::functions::Input;
use oracle::lines::{self, AnswerLine, AnswerLines};
use oracle::random::Random;
use oracle::{input_counts, input_lines};

use super::report::Report;

pub fn random_line(r: &mut Random, report: &mut Report) {
    let mut line = Vec::new();
    input_lines::line(r, &mut line);
    compare_line(report, &line, &[input_counts::random(r)]);
}

/// A text, mostly of few lines, and room for none, some, all and more, by fours or not.
pub fn random_text(r: &mut Random, report: &mut Report) {
    let most = *r.among(&[2, 4, 12, 40]);
    let mut text = Vec::new();
    input_lines::text(r, most, &mut text);
    let all = 4 * lines::lines(&text).count();
    let room = match r.below(8) {
        0 => r.below(4),
        1 => all,
        2 => all.saturating_sub(1),
        3 => all + 1 + r.below(50),
        _ => r.below(all + 4),
    };
    compare_text(report, &text, room, &[input_counts::random(r)]);
}

/// By itself, and to each of the tallies.
fn compare_line(report: &mut Report, line: &[u8], tallies: &[Vec<u32>]) {
    let input = Input::of(line);
    report.compare::<AnswerLine>(input);
    for counts in tallies {
        report.compare::<TallyLine>(Input { counts, ..input });
    }
}

fn compare_text(report: &mut Report, content: &[u8], room: usize, tallies: &[Vec<u32>]) {
    let input = Input {
        number: room as u64,
        ..Input::of(content)
    };
    report.compare::<AnswerLines>(input);
    for counts in tallies {
        report.compare::<TallyLines>(Input { counts, ..input });
    }
}

/// A line by itself and to each tally, and in a text between two others with room for two of them and for all.
pub fn every_line(lines: &[Vec<u8>], report: &mut Report) {
    let tallies = input_counts::every();
    for line in lines {
        compare_line(report, line, &tallies);
        let text = [b"0088 34 71\n", &line[..], b"\n0192 29 000000000"].concat();
        compare_text(report, &text, 11, &tallies[..1]);
        compare_text(report, &text, 16, &tallies[..1]);
    }
}

/// A text with room for no line, and for one number more and more.
pub fn every_text(texts: &[Vec<u8>], report: &mut Report) {
    let tallies = input_counts::every();
    for text in texts {
        (0..=4 * 4 + 1).for_each(|room| compare_text(report, text, room, &tallies));
    }
}
