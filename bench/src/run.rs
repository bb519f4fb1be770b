//! The rounds of one program, and the rows of the same program at every place.

use std::collections::BTreeSet;
use std::io::{IsTerminal, Write};
use std::process::{Command, Stdio};

use crate::case::Case;
use crate::place::{self, PLACES};
use crate::programs::{self, Programs};
use crate::row::Row;
use crate::{accounts, checks, corrections, lines, some_lines, text};

/// The word that asks a program for its own rows.
pub const HERE: &str = "here";

/// Times everything in this program, and writes where its code lies and a line for each row.
pub fn here(rounds: usize) {
    let input = some_lines::some_lines(programs::LINES);
    let mut cases = cases(&input);
    assert_eq!(functions_of(&cases), functions_of_header());
    let mut programs = Programs::new(&input);
    for round in 0..rounds {
        show(round, rounds);
        cases.iter_mut().for_each(|case| case.round(round));
        programs.round(round);
    }
    show(rounds, rounds);
    println!("{}", place::offset());
    let rows = cases.iter().map(Case::row).chain(programs.rows());
    rows.for_each(|row| println!("{}", row.line()));
}

fn cases(input: &[u8]) -> Vec<Case> {
    let mut cases = checks::cases();
    cases.extend(accounts::cases());
    cases.extend(corrections::cases());
    cases.extend(lines::cases(input));
    cases.extend(text::cases());
    cases
}

fn show(round: usize, rounds: usize) {
    let mut err = std::io::stderr();
    if err.is_terminal() {
        let _ = write!(err, "\rplace {}: round {round} of {rounds} ", place::PLACE);
    }
}

/// The rows of the programs at all places, put together.
pub fn at_every_place(rounds: usize) -> Vec<Row> {
    let said = PLACES.map(|place| said_at(place, rounds));
    let [(here, rows), (there, others)] = said.each_ref().map(|s| s.split_once('\n').unwrap());
    assert_ne!(here, there, "the code lies at the same place twice");
    let rows = rows.lines().zip(others.lines());
    rows.map(|(a, b)| Row::of_line(a).joined(&Row::of_line(b)))
        .collect()
}

fn said_at(place: &str, rounds: usize) -> String {
    let mut command = Command::new(format!("target/bench/{place}/bench"));
    command.args([HERE, &rounds.to_string()]);
    let output = command.stderr(Stdio::inherit()).output();
    let output = output.unwrap_or_else(|e| panic!("place {place}: {e}"));
    assert!(output.status.success(), "place {place} failed");
    String::from_utf8(output.stdout).expect("rows")
}

fn functions_of(cases: &[Case]) -> BTreeSet<&'static str> {
    cases.iter().map(|case| case.function.name).collect()
}

/// The functions that the header declares before those that decide nothing.
fn functions_of_header() -> BTreeSet<&'static str> {
    let header = include_str!("../../include/partyid.h");
    let (proved, _) = header.split_once("/* ---- Words").expect("the words");
    let declarations = proved.lines().filter(|line| line.ends_with(");"));
    let names = declarations.filter_map(|line| {
        let (before, _) = line.split_once('(')?;
        before.rsplit_once("partyid_").map(|(_, name)| name)
    });
    names.collect()
}
