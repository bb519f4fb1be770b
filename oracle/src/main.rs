//! Compares the proved library with the Rust original: `compare [COUNT] [SEED]`.

mod compare;

use std::process::ExitCode;
use std::time::Instant;

use compare::{run, selftest};

fn main() -> ExitCode {
    let words: Vec<String> = std::env::args().skip(1).collect();
    let numbers: Result<Vec<u64>, _> = words.iter().map(|word| word.parse()).collect();
    match numbers.as_deref() {
        Ok([]) => report(1_000_000, 1),
        Ok([count]) => report(*count, 1),
        Ok([count, seed]) => report(*count, *seed),
        _ => {
            eprintln!("usage: oracle/run [COUNT] [SEED], two numbers");
            ExitCode::from(2)
        }
    }
}

/// Compares on so many random contents beside those of every run. Success where nothing differs and every outcome came up.
fn report(count: u64, seed: u64) -> ExitCode {
    let began = Instant::now();
    selftest::run();
    let (report, contents) = run::compare(count, seed);
    report.print();
    let comparisons = report.comparisons();
    println!("\n{contents} contents, {comparisons} comparisons");
    let troubles = report.troubles();
    troubles.iter().for_each(|trouble| println!("{trouble}"));
    let well = troubles.is_empty();
    let verdict = if well { "no difference" } else { "NOT WELL" };
    println!(
        "{verdict}: {count} of the contents random, from seed {seed}; {:.1} s",
        began.elapsed().as_secs_f64()
    );
    ExitCode::from(u8::from(!well))
}
