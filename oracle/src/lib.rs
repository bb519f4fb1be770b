//! The proved library beside the Rust that it was carried over from: what the original answers, and contents to compare the two on.

// the original, and as much around it as it reads
pub mod invoice;
#[allow(unexpected_cfgs)] // the original's feature `sepa`, whose branches are not taken
pub mod original;
// the copied text names it here
pub use invoice::Identifier;

// what is known of the library's functions and of the rules, and what the original answers
pub mod accounts;
pub mod answers;
pub mod corrections;
pub mod counts;
pub mod functions;
pub mod known;
#[path = "../../bindings/rust/src/raw.rs"]
pub mod library;
pub mod lines;
pub mod rules;
pub mod text;

// inputs
pub mod exhaustive;
pub mod fields;
pub mod identifiers;
pub mod input_counts;
pub mod input_lines;
pub mod input_numbers;
pub mod inputs;
pub mod points;
pub mod random;
