//! The comparisons: a file for each subject, and what counts, divides and shows them.

mod contents;
mod corrections;
mod fields;
mod input;
mod lines;
mod progress;
mod report;
pub mod run;
pub mod selftest;
mod tally;
mod work;
