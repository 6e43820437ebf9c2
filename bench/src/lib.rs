//! The library's calls against the same calls in Rust (`search`, which `checked` and `indexed`
//! belong to), on the same books (`books`) in the same process (`measure`), written to docs/ (`report`,
//! `plot`).

pub mod books;
mod checked;
mod indexed;
pub mod large;
pub mod large_books;
mod large_check;
pub mod large_measure;
pub mod measure;
pub mod plot;
pub mod raw;
pub mod report;
pub mod search;
