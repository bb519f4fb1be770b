//! Makes the list that the program `replay` runs: examples, and what the Rust original answers.
//!
//!     list            writes crates/replay/stdin and crates/replay/stdout
//!     list --check    fails where they are not what would be written

mod accounts;
mod draw;
mod example;
mod fields;
mod lines;
mod part;
mod text;
mod work;

use std::fs;
use std::process::ExitCode;

use part::Part;

/// The two files of the program: an example to a line; the same with its answer behind it.
const EXAMPLES: &str = "crates/replay/stdin";
const ANSWERS: &str = "crates/replay/stdout";

struct List {
    examples: String,
    answers: String,
}

fn main() -> ExitCode {
    let words: Vec<String> = std::env::args().skip(1).collect();
    let words: Vec<&str> = words.iter().map(String::as_str).collect();
    let done = match words[..] {
        [] => made().and_then(|list| list.write()),
        ["--check"] => made().and_then(|list| list.check()),
        _ => Err("usage: oracle/list [--check]".to_owned()),
    };
    match done {
        Ok(()) => ExitCode::SUCCESS,
        Err(message) => {
            eprintln!("{message}");
            ExitCode::FAILURE
        }
    }
}

/// Each part is drawn from a seed of its own, so that a change in one leaves the others as they are.
fn made() -> Result<List, String> {
    let mut list = List {
        examples: String::new(),
        answers: String::new(),
    };
    for (part, seed) in parts()?.into_iter().zip(1..) {
        for example in part.examples(seed)? {
            let line = part.line(&example);
            list.examples += &format!("{line}\n");
            list.answers += &format!("{line} =>{}\n", example.answer);
        }
        println!("{part}");
    }
    println!("{} examples", list.examples.lines().count());
    Ok(list)
}

fn parts() -> Result<Vec<Part>, String> {
    let parts = [
        text::parts(),
        fields::parts(),
        accounts::parts(),
        work::parts(),
        lines::parts()?,
    ];
    Ok(parts.into_iter().flatten().collect())
}

impl List {
    fn write(&self) -> Result<(), String> {
        for (path, text) in self.files() {
            fs::write(path, text).map_err(|e| format!("{path}: {e}"))?;
        }
        Ok(())
    }

    fn check(&self) -> Result<(), String> {
        for (path, text) in self.files() {
            let there = fs::read(path).map_err(|e| format!("{path}: {e}"))?;
            if there != text.as_bytes() {
                return Err(format!(
                    "{path} is not what oracle/list writes: {}",
                    first_difference(&there, text)
                ));
            }
        }
        Ok(())
    }

    fn files(&self) -> [(&'static str, &str); 2] {
        [(EXAMPLES, &self.examples), (ANSWERS, &self.answers)]
    }
}

/// The first line that differs.
fn first_difference(there: &[u8], text: &str) -> String {
    let there = String::from_utf8_lossy(there);
    let mut lines = there.lines().zip(text.lines()).zip(1..);
    match lines.find(|((a, b), _)| a != b) {
        Some(((there, made), number)) => format!("line {number} is\n{there}\ninstead of\n{made}"),
        None => "one of the two is longer".to_owned(),
    }
}
