//! The compiled calls of the proved solver against the independent implementation of papers 01 and 02.
//!
//! `exports` are the library's calls on a book in two slices, `library` makes them between guards, `input` draws states
//! and lists of calls from a seed, `hold` makes the calls on both sides and compares.

pub mod budget;
pub mod day;
pub mod exports;
pub mod generate;
mod guarded;
pub mod hold;
pub mod input;
pub mod library;
pub mod rounds;
pub mod run;
pub mod shrink;
pub mod spoil;
pub mod tally;
pub mod text;
pub mod texts;
