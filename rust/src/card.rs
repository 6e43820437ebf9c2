//! Cards in lent tables, their lines and their pages.

use crate::ffi;
use crate::refusal::Refused;

/// Byte of a line: the flag may have either value.
pub const OPEN: u8 = 0;
/// Byte of a line or a reading: the flag is off.
pub const OFF: u8 = 1;
/// Byte of a line or a reading: the flag is on.
pub const ON: u8 = 2;

/// The bytes of a printed page: 24 rows of 72, each row's last one being a newline.
pub const PAGE_BYTES: usize = 24 * 72;

/// The lines that a page has room for.
const PAGE_LINES: usize = 22;

/// A card, whose lines stand in the table that was lent for it.
///
/// A line is a set of readings, as one byte for each flag in place order: [`OPEN`], [`OFF`] or [`ON`].
/// [`Book::literals`](crate::Book::literals) names the flags.
#[derive(Clone, Copy, Debug)]
pub struct Card<'t> {
    table: &'t [u8],
    lines: usize,
    flags: usize,
    visits: u64,
}

impl<'t> Card<'t> {
    pub(crate) fn new(table: &'t [u8], lines: usize, flags: usize, visits: u64) -> Card<'t> {
        Card { table, lines, flags, visits }
    }

    /// How many lines it has.
    pub fn len(&self) -> usize {
        self.lines
    }

    /// Whether it has no line.
    pub fn is_empty(&self) -> bool {
        self.lines == 0
    }

    /// The visits that it took.
    pub fn visits(&self) -> u64 {
        self.visits
    }

    /// The line of an index, from 0. With no flag a line has no byte.
    pub fn line(&self, index: usize) -> Option<&'t [u8]> {
        let start = (index < self.lines).then(|| index * self.flags)?;
        self.table.get(start..start + self.flags)
    }

    /// Its lines in order.
    pub fn lines(&self) -> impl Iterator<Item = &'t [u8]> + 't {
        let card = *self;
        (0..self.lines).filter_map(move |index| card.line(index))
    }

    /// How many pages it has: one also where it has no line.
    pub fn pages(&self) -> usize {
        self.lines.div_ceil(PAGE_LINES).max(1)
    }

    /// A page, from 1, in the first [`PAGE_BYTES`] bytes of a table. Refusals 36, then 31.
    pub fn page<'o>(&self, number: usize, out: &'o mut [u8]) -> Result<&'o [u8], Refused> {
        let refusal = ffi::page(self.table, self.lines, self.flags, number, out);
        Refused::unless_none(refusal, 0, 0)?;
        Ok(first(out, PAGE_BYTES))
    }
}

/// The first bytes of a table. The library tells no more than it has.
pub(crate) fn first(table: &[u8], length: usize) -> &[u8] {
    table.get(..length).unwrap_or(table)
}

/// The lines of a card as literals: a flag's number for on, negated for off; a flag that a line leaves
/// out may have either value.
#[derive(Clone, Debug, PartialEq, Eq)]
pub struct Lines {
    /// In the card's order, each in place order.
    pub lines: Vec<Vec<i16>>,
    /// The visits that the card took.
    pub visits: u64,
}
