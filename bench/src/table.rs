//! The table of all rows, in Markdown, and what is to be known to read it.

use crate::row::{Row, Rust};

pub fn print(rows: &[Row], rounds: usize) {
    println!(
        "Nanoseconds for an answer: medians of {rounds} rounds in which the sides take turns, the mean of two builds whose code lies 16 bytes \
         apart. A ratio is Rust by library: over 1 the library is the faster; in parentheses the quartiles of the rounds' ratios, the \
         lower and the higher one of the two builds. The lean Rust is told what the library has to find out, as that its text is UTF-8, or is \
         tuned; the plain Rust begins with the same bytes.\n"
    );
    let head = [
        "function", "of", "library", "lean", "ratio", "plain", "ratio",
    ];
    print_table(&head, rows.iter().map(cells).collect());
    println!("\nThe Rust beside each:\n");
    print_table(&["function", "lean", "plain"], legend(rows));
    print_slower("lean", rows, |row| &row.lean);
    print_slower("plain", rows, |row| &row.plain);
}

fn cells(row: &Row) -> Vec<String> {
    let mut cells = vec![
        format!("`{}`", row.function),
        row.of.clone(),
        format!("{:.1}", row.library),
    ];
    for rust in [&row.lean, &row.plain] {
        cells.extend(match rust.times {
            Some(times) => {
                let ratios = [times.median / row.library, times.low, times.high];
                let [ratio, low, high] = ratios.map(three_figures);
                [
                    format!("{:.1}", times.median),
                    format!("{ratio} ({low} to {high})"),
                ]
            }
            None => Default::default(),
        });
    }
    cells
}

fn three_figures(ratio: f64) -> String {
    let places = match ratio {
        0.0..10.0 => 2,
        10.0..100.0 => 1,
        _ => 0,
    };
    format!("{ratio:.places$}")
}

/// What stands beside each function.
fn legend(rows: &[Row]) -> Vec<Vec<String>> {
    let cells = rows.iter().map(|row| {
        let function = format!("`{}`", row.function);
        vec![function, row.lean.what.clone(), row.plain.what.clone()]
    });
    let mut cells: Vec<_> = cells.collect();
    cells.dedup();
    cells
}

fn print_slower(name: &str, rows: &[Row], side: impl Fn(&Row) -> &Rust) {
    let is_slower = |row: &&Row| {
        side(row)
            .times
            .is_some_and(|times| times.median < row.library)
    };
    let slower = rows.iter().filter(is_slower);
    let slower: Vec<_> = slower
        .map(|row| format!("`{}` ({})", row.function, row.of))
        .collect();
    let slower = match slower.is_empty() {
        true => "nowhere".to_owned(),
        false => slower.join(", "),
    };
    println!("\nSlower than the {name} Rust: {slower}.");
}

fn print_table(head: &[&str], mut rows: Vec<Vec<String>>) {
    rows.insert(0, head.iter().map(|&cell| cell.to_owned()).collect());
    let width = |column: usize| rows.iter().map(|row| row[column].chars().count()).max();
    let widths: Vec<usize> = (0..head.len()).filter_map(width).collect();
    rows.insert(1, widths.iter().map(|&width| "-".repeat(width)).collect());
    for row in rows {
        let cells = row.iter().zip(&widths);
        let cells: Vec<_> = cells
            .map(|(cell, &width)| format!("{cell:<width$}"))
            .collect();
        println!("| {} |", cells.join(" | "));
    }
}
