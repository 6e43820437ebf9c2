//! An implementation of papers 01 and 02 over plain data, written from the papers alone.
//!
//! It answers the same calls as the proved solver, so that both can be run on one list of
//! calls and compared. Beside it stand the plain run, an evaluation of truth that uses neither
//! search, and `Slip`: mistakes that can be switched in at run time, to find the smallest case
//! that shows each of them.

pub mod answer;
pub mod bounded;
pub mod cases;
pub mod check;
pub mod closest;
pub mod constraint;
pub mod day;
pub mod dead;
mod decide;
pub mod draw;
pub mod editions;
pub mod finder;
pub mod formula;
pub mod hold;
pub mod last_card;
pub mod layout;
pub mod learning;
pub mod limits;
pub mod one;
pub mod open_query;
pub mod options;
pub mod page;
pub mod plain;
pub mod plain_run;
pub mod qdimacs;
pub mod random;
pub mod reading;
pub mod refusal;
pub mod rows;
pub mod session;
pub mod slices;
pub mod slip;
pub mod slips;
pub mod solver;
pub mod store;
pub mod table;
pub mod text;
pub mod truth;
pub mod write;

pub use answer::{Answer, Call, Said, Subject, HIGHEST_CEILING};
pub use formula::{Formula, Literal, Quantifier, Variable};
pub use options::{Limits, Options};
pub use plain_run::PlainRun;
pub use reading::Reading;
pub use slip::Slip;
pub use solver::{Solver, State};
pub use store::Store;
