//! A book on the heap and the calls on it.

use crate::card::{Card, Lines};
use crate::ffi::{self, with_workspace, Tables};
use crate::lent::{self, Answer, Closest, LentBook};
use crate::limits::Limits;
use crate::refusal::Refused;
use std::fmt;

/// A book, and what was learned on it.
///
/// It comes from a text alone, and only the calls change it: so its tables are what the library wrote, and no
/// call is refused with 22. What was learned makes later calls cheaper and changes no answer.
///
/// A literal is a variable's number for on, negated for off.
///
/// ```
/// use bullacetop::{Book, Verdict, HIGHEST_CEILING};
///
/// # fn main() -> Result<(), bullacetop::Refused> {
/// let text = b"(book 1)\n(flags 1 2)\n(exists 3)\n(forall 4)\n(rule 3 4 (no 1))\n(rule (no 3) (no 4) 2)\n(rule 1 2)\n(end)\n";
/// let mut book = Book::open(text)?;
/// let card = book.card_lines(HIGHEST_CEILING)?;
/// assert_eq!(card.lines, [[-1, 2], [1, 2]]);
/// assert_eq!(book.query(&[1], &[2], HIGHEST_CEILING)?.verdict, Verdict::Keep);
/// # Ok(())
/// # }
/// ```
///
/// There is no other way to its tables:
///
/// ```compile_fail
/// let book = bullacetop::Book { cells: Default::default() };
/// ```
/// ```compile_fail
/// let room = bullacetop::ffi::room();
/// ```
pub struct Book {
    // As long as its limits ask.
    cells: Box<[u16]>,
    literals: Box<[i16]>,
}

impl Clone for Book {
    fn clone(&self) -> Book {
        Book { cells: self.cells.clone(), literals: self.literals.clone() }
    }
}

impl Book {
    /// Opens a text of edition 1 or 2 under the usual limits, 40 and 255. Refusals 9, then line by line 1, 2,
    /// and as the calls; 33 for a 41st flag; 39 after 20.
    ///
    /// ```
    /// use bullacetop::{Book, Refusal};
    ///
    /// let refused = Book::open(b"(book 1)\n(flags 1 2)\n(rule 1 3)\n(end)\n").unwrap_err();
    /// assert_eq!((refused.refusal, refused.line), (Refusal::NotDeclared, 3));
    /// assert_eq!(refused.refusal.number(), 5);
    /// ```
    pub fn open(text: &[u8]) -> Result<Book, Refused> {
        Book::open_under(Limits::USUAL, text)
    }

    /// .. under limits of its own.
    pub fn open_under(limits: Limits, text: &[u8]) -> Result<Book, Refused> {
        Book::read(limits, |pair, tables| ffi::open(text, pair, tables))
    }

    /// Opens a QDIMACS 1.1 text under the usual limits: variables that stand in no quantifier line are the
    /// flags.
    pub fn open_qdimacs(text: &[u8]) -> Result<Book, Refused> {
        Book::open_qdimacs_under(Limits::USUAL, text)
    }

    /// .. under limits of its own.
    pub fn open_qdimacs_under(limits: Limits, text: &[u8]) -> Result<Book, Refused> {
        Book::read(limits, |pair, tables| ffi::open_qdimacs(text, pair, tables))
    }

    fn read(
        limits: Limits,
        open: impl FnOnce((usize, usize), Tables) -> ffi::Opened,
    ) -> Result<Book, Refused> {
        let mut book = Book {
            cells: vec![0; limits.cells()].into_boxed_slice(),
            literals: vec![0; limits.literals()].into_boxed_slice(),
        };
        let tables = Tables { cells: &mut book.cells, literals: &mut book.literals };
        let opened = open(limits.pair(), tables);
        Refused::unless_none(opened.refusal, opened.line, 0)?;
        Ok(book)
    }

    /// A call on its tables, lent with the workspace of the thread: every call is made so. They do not leave
    /// this crate, so that it stays a book.
    pub(crate) fn lent<R>(&mut self, call: impl FnOnce(&mut LentBook<'_>) -> R) -> R {
        let tables = Tables { cells: &mut self.cells, literals: &mut self.literals };
        with_workspace(|work| call(&mut LentBook::left_in(tables, work)))
    }

    /// The limits that it was opened under, lowered to the highest.
    pub fn limits(&self) -> Limits {
        let limit = |index: usize| self.cells.get(index).map_or(0, |&limit| usize::from(limit));
        Limits { numbers: limit(0), rules: limit(1) }
    }

    /// The numbers of the flags in place order.
    pub fn flags(&self) -> impl Iterator<Item = i16> + '_ {
        lent::flags(&self.cells)
    }

    /// How many rules stand.
    pub fn rules(&self) -> usize {
        lent::rules(&self.cells)
    }

    /// A line of this book's card, or a reading, as literals; open flags are left out.
    pub fn literals(&self, line: &[u8]) -> Vec<i16> {
        lent::literals(&self.cells, line).collect()
    }

    /// Adds a rule of 1 to 16 literals, in any order. Refusals 20, 7, then from the left 3, 5, 6.
    pub fn rule(&mut self, literals: &[i16]) -> Result<(), Refused> {
        self.lent(|book| book.rule(literals))
    }

    /// Adds the rules of `exactly one of these 2 to 16 literals`: all of them, or none. Refusals 7, 20, then
    /// from the left 3, 5, 6.
    pub fn one(&mut self, literals: &[i16]) -> Result<(), Refused> {
        self.lent(|book| book.one(literals))
    }

    /// Takes the rule back that was added last. Refusal 32.
    pub fn withdraw(&mut self) -> Result<(), Refused> {
        self.lent(|book| book.withdraw())
    }

    /// Forgets what was learned.
    pub fn forget(&mut self) -> Result<(), Refused> {
        self.lent(|book| book.forget())
    }

    /// What the rules say where these flags are on, those off, and the others open. Refusals 8, 34.
    pub fn query(&mut self, on: &[i16], off: &[i16], ceiling: u32) -> Result<Answer, Refused> {
        self.lent(|book| book.query(on, off, ceiling))
    }

    /// The readings that condemn a board, in a lent table. Refusals 34, 21.
    ///
    /// ```
    /// # fn main() -> Result<(), bullacetop::Refused> {
    /// let mut book = bullacetop::Book::open(b"(book 1)\n(flags 7 9)\n(rule 7 (no 9))\n(end)\n")?;
    /// let mut table = [0; 4];
    /// let card = book.card(&mut table, bullacetop::HIGHEST_CEILING)?;
    /// let lines: Vec<_> = card.lines().map(|line| book.literals(line)).collect();
    /// assert_eq!(lines, [vec![-7, -9], vec![7]]);
    /// # Ok(())
    /// # }
    /// ```
    pub fn card<'t>(&mut self, table: &'t mut [u8], ceiling: u32) -> Result<Card<'t>, Refused> {
        self.lent(|book| book.card(table, ceiling))
    }

    /// The readings that clear a board, in the same way.
    pub fn keep_card<'t>(
        &mut self,
        table: &'t mut [u8],
        ceiling: u32,
    ) -> Result<Card<'t>, Refused> {
        self.lent(|book| book.keep_card(table, ceiling))
    }

    /// [`Book::card`] with a table of 65,536 bytes, as a session has, and its lines as literals.
    pub fn card_lines(&mut self, ceiling: u32) -> Result<Lines, Refused> {
        let mut table = vec![0; ffi::CARD_TABLE];
        let card = self.card(&mut table, ceiling)?;
        Ok(self.named(card))
    }

    /// [`Book::keep_card`] likewise.
    pub fn keep_card_lines(&mut self, ceiling: u32) -> Result<Lines, Refused> {
        let mut table = vec![0; ffi::CARD_TABLE];
        let card = self.keep_card(&mut table, ceiling)?;
        Ok(self.named(card))
    }

    fn named(&self, card: Card) -> Lines {
        let lines = card.lines().map(|line| self.literals(line)).collect();
        Lines { lines, visits: card.visits() }
    }

    /// The reading on the card that is closest to a given one; every flag is given, on or off. The card is
    /// made in the lent table. Refusals 8, 34, 21, and 35 where the card has no line.
    pub fn closest<'t>(
        &mut self,
        on: &[i16],
        off: &[i16],
        table: &'t mut [u8],
        ceiling: u32,
    ) -> Result<Closest<'t>, Refused> {
        self.lent(|book| book.closest(on, off, table, ceiling))
    }

    /// Writes the book as text into a lent table; [`Book::room`] bytes hold it. Refusal 31.
    ///
    /// Opening the text under the same limits gives the same book, with nothing learned; two books have equal
    /// texts exactly if they have the same variables, quantifiers and places, and the same rules in order.
    pub fn write<'t>(&self, table: &'t mut [u8]) -> Result<&'t [u8], Refused> {
        lent::write(&self.cells, &self.literals, table)
    }

    /// A table of so many bytes holds the text of every book under this one's limits.
    pub fn room(&self) -> usize {
        ffi::book_room(&self.cells)
    }

    /// The same text on its own.
    pub fn text(&self) -> Result<Vec<u8>, Refused> {
        Ok(self.write(&mut vec![0; self.room()])?.to_vec())
    }
}

impl fmt::Debug for Book {
    /// Its flags and the count of its rules: the tables are long.
    fn fmt(&self, f: &mut fmt::Formatter) -> fmt::Result {
        let flags: Vec<i16> = self.flags().collect();
        f.debug_struct("Book").field("flags", &flags).field("rules", &self.rules()).finish()
    }
}
