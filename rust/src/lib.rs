//! Bullacetop: a proved solver for parametric quantified Boolean formulas.
//!
//! A [`Book`] says which faults and loads explain which log readings: variables that the log shows (flags),
//! variables that may be there (exists) or may be set (forall), and rules over all of them. Its card lists
//! the readings of the flags for which the rules are true, and a query asks about one reading.
//!
//! The library behind these calls is proved: for every state and argument each answer is what the
//! definitions say. This crate adds types to it. It has no `unsafe` outside two private modules, panics on no
//! input, and keeps on the heap what is large: a [`LentBook`] has the calls in tables that the caller lends,
//! and allocates nothing. A search, a printed card or a line of a session wants 512 KiB of stack, any other
//! call 32 KiB; threads have more unless they are told otherwise.
//!
//! A book is opened under limits, which are 40 numbers and 255 rules where none are given, and at most those of
//! [`Limits::HIGHEST`].
//!
//! ```
//! use bullacetop::{Book, Refusal, Verdict, HIGHEST_CEILING};
//!
//! # fn main() -> Result<(), bullacetop::Refused> {
//! let mut book = Book::open(b"(book 1)\n(flags 1 2)\n(exists 3)\n(rule 3 (no 1))\n(rule (no 3) 2)\n(end)\n")?;
//! assert_eq!(book.query(&[1, 2], &[], HIGHEST_CEILING)?.verdict, Verdict::Swap);
//! assert_eq!(book.query(&[1], &[2], HIGHEST_CEILING)?.verdict, Verdict::Keep);
//! // Flag 2 was not recorded.
//! assert_eq!(book.query(&[1], &[], HIGHEST_CEILING)?.verdict, Verdict::Unsettled);
//! // Stopped before the first visit.
//! let refused = book.query(&[1, 2], &[], 0).unwrap_err();
//! assert_eq!(refused.refusal, Refusal::Stopped);
//! # Ok(())
//! # }
//! ```

#![deny(missing_docs)]
#![deny(unsafe_code)]

mod book;
mod card;
mod day;
#[allow(unsafe_code)]
mod ffi;
#[allow(unsafe_code)]
mod ffi_day;
mod lent;
mod limits;
mod refusal;
mod session;
mod text;

pub use book::Book;
pub use card::{Card, Lines, OFF, ON, OPEN, PAGE_BYTES};
pub use day::{Day, PLACES};
pub use ffi::{Tables, Workspace};
pub use lent::{Answer, Closest, LastCard, LentBook, Verdict, HIGHEST_CEILING, TEXT_ROOM};
pub use limits::Limits;
pub use refusal::{Refusal, Refused};
pub use session::Session;
pub use text::{
    print, printed, printed_under, room, tag, tagged, tagged_under, untag, untagged,
    untagged_under, LONGEST_TEXT,
};
