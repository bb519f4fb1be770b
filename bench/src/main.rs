//! Times the proved library and its line program beside the Rust original: `bench [ROUNDS] [--instructions]`.

mod accounts;
mod case;
mod checks;
mod corrections;
mod in_place;
mod line_program;
mod lines;
mod place;
mod predicates;
mod programs;
mod row;
mod run;
mod some_lines;
mod table;
mod tally;
mod text;

/// Some two minutes on an idle machine, with the building.
const ROUNDS: usize = 101;

fn main() {
    let words: Vec<String> = std::env::args().skip(1).collect();
    let words: Vec<&str> = words.iter().map(String::as_str).collect();
    match words[..] {
        [] => compare(ROUNDS, false),
        [rounds] if rounds.parse::<usize>().is_ok() => compare(number(rounds), false),
        ["--instructions"] => compare(ROUNDS, true),
        [rounds, "--instructions"] => compare(number(rounds), true),
        // what the program asks of itself, at each place
        [run::HERE, rounds] => run::here(number(rounds)),
        [line_program::FORMATTED] => line_program::run(line_program::write_formatted),
        [line_program::TUNED] => line_program::run(line_program::write_digits),
        _ => usage(),
    }
}

fn compare(rounds: usize, instructions: bool) {
    table::print(&run::at_every_place(rounds), rounds);
    if instructions {
        programs::print_instructions();
    }
}

fn number(word: &str) -> usize {
    match word.parse() {
        Ok(number) if 0 < number => number,
        _ => usage(),
    }
}

fn usage() -> ! {
    eprintln!("usage: bench/run [ROUNDS] [--instructions]");
    std::process::exit(2);
}
