//! A plain implementation of docs/SPECIFICATION.md and of its readings in docs/DECISIONS.md, to hold the proved programs
//! against. It shares nothing with their code. It needs Rust's standard library alone.
//!
//! ```text
//! cargo test                                  examples, log cases, limits and refusals
//! cargo build --release
//! target/release/reference audit < BUNDLE     what the program audit must print
//! target/release/reference replay < CALLS     what the program replay must print
//! target/release/reference tally < NAMES      what the program tally must print
//! ```

pub mod book;
pub mod bundle;
mod c;
pub mod document;
pub mod programs;
pub mod register;
pub mod rules;
pub mod selection;
pub mod tally;
pub mod term;
pub mod text;
#[cfg(test)]
mod tests;

/// An answer: a refusal's number, 0 for acceptance, and its value.
pub type Answer = (u16, u64);
