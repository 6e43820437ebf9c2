//! A session: a book, then call lines, each answered in text.

use crate::book::Book;
use crate::ffi::{self, CARD_TABLE};
use crate::lent::LastCard;
use crate::limits::Limits;
use crate::refusal::Refused;
use std::fmt;

/// A book that is asked by lines, as the program `session` is.
///
/// ```
/// # fn main() -> Result<(), bullacetop::Refused> {
/// let mut session = bullacetop::Session::open(b"(book 1)\n(flags 1 2)\n(rule 1 2)\n(end)\n")?;
/// assert_eq!(session.line(b"(query 1 (no 2))"), b"(swap (visits 1))\n");
/// assert_eq!(session.line(b"(rule 3)"), b"(refused 5 6)\n");
/// assert_eq!(session.line(b"(one 1 2)"), b"(accepted)\n");
/// assert_eq!(session.book().rules(), 3);
/// # Ok(())
/// # }
/// ```
pub struct Session {
    book: Book,
    /// How many lines came before the next one.
    lines: u64,
    /// The card answered last, whose lines stand in the table.
    shown: ffi::Shown,
    cards: Box<[u8; CARD_TABLE]>,
    answer: Vec<u8>,
}

impl Session {
    /// Opens a text of edition 1 or 2 under the usual limits; lines are counted from its first.
    pub fn open(text: &[u8]) -> Result<Session, Refused> {
        Session::open_under(Limits::USUAL, text)
    }

    /// .. under limits of its own.
    pub fn open_under(limits: Limits, text: &[u8]) -> Result<Session, Refused> {
        let lines = text.iter().filter(|&&byte| byte == b'\n').count();
        Ok(Session::new(Book::open_under(limits, text)?, lines as u64))
    }

    /// A session on a book, after so many lines.
    pub fn new(book: Book, lines: u64) -> Session {
        let answer = vec![0; ffi::room()];
        Session { book, lines, shown: ffi::no_card(), cards: table(), answer }
    }

    /// Serves one line, without its newline, and answers in text. A refused one answers `(refused N L)`, its
    /// number and its line, and the session goes on; `docs/FORMAT.md` has every form.
    pub fn line(&mut self, line: &[u8]) -> &[u8] {
        self.lines = self.lines.saturating_add(1);
        let mut last = LastCard { shown: self.shown, cards: &mut self.cards };
        let (number, answer) = (self.lines, &mut self.answer);
        let told = self.book.lent(|book| book.line(line, number, &mut last, answer));
        self.shown = last.shown;
        // The table has the room that every answer needs, so that none is refused.
        told.unwrap_or_default()
    }

    /// The book as it now stands. It is only lent: a rule added beside the session would leave it with a
    /// card that no longer holds.
    pub fn book(&self) -> &Book {
        &self.book
    }

    /// Ends the session; the book is left.
    pub fn into_book(self) -> Book {
        self.book
    }
}

/// A table of cards, made on the heap.
fn table() -> Box<[u8; CARD_TABLE]> {
    match vec![0; CARD_TABLE].try_into() {
        Ok(table) => table,
        // Never: it has just this length.
        Err(_) => Box::new([0; CARD_TABLE]),
    }
}

impl fmt::Debug for Session {
    fn fmt(&self, f: &mut fmt::Formatter) -> fmt::Result {
        f.debug_struct("Session").field("book", &self.book).field("lines", &self.lines).finish()
    }
}
