//! A book in tables that the caller lends: the calls without a heap.

use crate::card::{first, Card, OFF, ON};
use crate::ffi::{self, Tables, Workspace};
use crate::limits::Limits;
use crate::refusal::Refused;

/// The highest ceiling on the visits of a call.
pub const HIGHEST_CEILING: u32 = u32::MAX;

/// A table of so many bytes holds the text of every book under [`Limits::USUAL`].
pub const TEXT_ROOM: usize = 34_928;

/// What a query says of a board.
#[derive(Clone, Copy, Debug, PartialEq, Eq, Hash)]
pub enum Verdict {
    /// No completion of the reading condemns it.
    Keep,
    /// Every completion of the reading condemns it.
    Swap,
    /// The flags that are open decide.
    Unsettled,
}

/// The answer of a query.
#[derive(Clone, Copy, Debug, PartialEq, Eq, Hash)]
pub struct Answer {
    /// What it says.
    pub verdict: Verdict,
    /// The visits that it took.
    pub visits: u64,
}

/// The reading on the card that differs from a given one in the fewest flags, the first among equals.
#[derive(Clone, Copy, Debug)]
pub struct Closest<'t> {
    reading: [u8; ffi::FLAGS],
    flags: usize,
    /// In how many flags it differs.
    pub differs: usize,
    /// The card, which was made on the way.
    pub card: Card<'t>,
}

impl<'t> Closest<'t> {
    pub(crate) fn new(
        reading: [u8; ffi::FLAGS],
        flags: usize,
        differs: usize,
        card: Card<'t>,
    ) -> Closest<'t> {
        Closest { reading, flags, differs, card }
    }
}

impl Closest<'_> {
    /// [`OFF`] or [`ON`] for each flag in place order.
    pub fn reading(&self) -> &[u8] {
        first(&self.reading, self.flags)
    }
}

/// The card answered last in a session, from which its pages are printed; its lines stand in a table that
/// is lent for them. A session begins with none.
#[derive(Debug)]
pub struct LastCard<'a> {
    pub(crate) shown: ffi::Shown,
    pub(crate) cards: &'a mut [u8; ffi::CARD_TABLE],
}

impl LastCard<'_> {
    /// None yet. What stands in the table means nothing.
    pub fn none(cards: &mut [u8; ffi::CARD_TABLE]) -> LastCard<'_> {
        LastCard { shown: ffi::no_card(), cards }
    }
}

/// A book in two tables and a workspace that the caller lends: nothing is allocated.
///
/// The calls are those of [`Book`](crate::Book), which holds such tables on the heap.
///
/// ```
/// use bullacetop::{LentBook, Limits, Tables, Verdict, Workspace, HIGHEST_CEILING};
/// use std::sync::Mutex;
///
/// static WORK: Mutex<Workspace> = Mutex::new(Workspace::zeroed());
///
/// # fn main() -> Result<(), bullacetop::Refused> {
/// const LIMITS: Limits = Limits { numbers: 9, rules: 20 };
/// let (mut cells, mut literals) = ([0; LIMITS.cells()], [0; LIMITS.literals()]);
/// let tables = Tables { cells: &mut cells, literals: &mut literals };
/// let mut work = WORK.lock().unwrap();
/// let mut book = LentBook::open(b"(book 1)\n(flags 7 9)\n(rule 7 (no 9))\n(end)\n", LIMITS, tables, &mut work)?;
/// assert_eq!(book.query(&[7], &[9], HIGHEST_CEILING)?.verdict, Verdict::Swap);
/// # Ok(())
/// # }
/// ```
///
/// Tables that are too short for the limits are refused with 22, as is every call on tables in which no book
/// was left:
///
/// ```
/// use bullacetop::{LentBook, Refusal, Tables, Workspace};
///
/// let (mut cells, mut literals) = ([7; 600], [7; 10_000]);
/// let mut work = Workspace::boxed();
/// let mut book = LentBook::left_in(Tables { cells: &mut cells, literals: &mut literals }, &mut work);
/// assert_eq!(book.rule(&[1]).unwrap_err().refusal, Refusal::Malformed);
/// ```
pub struct LentBook<'a> {
    tables: Tables<'a>,
    work: &'a mut Workspace,
}

impl<'a> LentBook<'a> {
    /// Opens a text of edition 1 or 2 under limits, onto these tables. Refusals 22, 9, then line by line 1, 2,
    /// and as the calls; 33 for a 41st flag; 39 after 20.
    pub fn open(
        text: &[u8],
        limits: Limits,
        mut tables: Tables<'a>,
        work: &'a mut Workspace,
    ) -> Result<LentBook<'a>, Refused> {
        let opened = ffi::open(text, limits.pair(), tables.lend());
        Refused::unless_none(opened.refusal, opened.line, 0)?;
        Ok(LentBook { tables, work })
    }

    /// Opens a QDIMACS 1.1 text likewise: variables that stand in no quantifier line are the flags.
    pub fn open_qdimacs(
        text: &[u8],
        limits: Limits,
        mut tables: Tables<'a>,
        work: &'a mut Workspace,
    ) -> Result<LentBook<'a>, Refused> {
        let opened = ffi::open_qdimacs(text, limits.pair(), tables.lend());
        Refused::unless_none(opened.refusal, opened.line, 0)?;
        Ok(LentBook { tables, work })
    }

    /// The book that was left in these tables. Where they hold none, each call is refused with 22.
    pub fn left_in(tables: Tables<'a>, work: &'a mut Workspace) -> LentBook<'a> {
        LentBook { tables, work }
    }

    /// The numbers of the flags in place order.
    pub fn flags(&self) -> impl Iterator<Item = i16> + '_ {
        flags(self.tables.cells)
    }

    /// How many rules stand.
    pub fn rules(&self) -> usize {
        rules(self.tables.cells)
    }

    /// A line of this book's card, or a reading, as the literals of the flags that it sets.
    pub fn literals<'l>(&'l self, line: &'l [u8]) -> impl Iterator<Item = i16> + 'l {
        literals(self.tables.cells, line)
    }

    /// Adds a rule of 1 to 16 literals, in any order. Refusals 20, 7, then from the left 3, 5, 6.
    pub fn rule(&mut self, literals: &[i16]) -> Result<(), Refused> {
        changed(ffi::rule(self.tables.lend(), literals))
    }

    /// Adds the rules of `exactly one of these 2 to 16 literals`: all of them, or none. Refusals 7, 20, then
    /// from the left 3, 5, 6.
    pub fn one(&mut self, literals: &[i16]) -> Result<(), Refused> {
        changed(ffi::one(self.tables.lend(), literals))
    }

    /// Takes the rule back that was added last. Refusal 32.
    pub fn withdraw(&mut self) -> Result<(), Refused> {
        changed(ffi::withdraw(self.tables.lend()))
    }

    /// Forgets what was learned.
    pub fn forget(&mut self) -> Result<(), Refused> {
        changed(ffi::forget(self.tables.lend()))
    }

    /// What the rules say where these flags are on, those off, and the others open. Refusals 8, 34.
    pub fn query(&mut self, on: &[i16], off: &[i16], ceiling: u32) -> Result<Answer, Refused> {
        answered(ffi::query(self.tables.lend(), self.work, on, off, ceiling))
    }

    /// The readings that condemn a board, in a lent table. Refusals 34, 21.
    pub fn card<'t>(&mut self, table: &'t mut [u8], ceiling: u32) -> Result<Card<'t>, Refused> {
        let reply = ffi::card(self.tables.lend(), self.work, table, ceiling);
        self.listed(reply, table)
    }

    /// The readings that clear a board, in the same way.
    pub fn keep_card<'t>(
        &mut self,
        table: &'t mut [u8],
        ceiling: u32,
    ) -> Result<Card<'t>, Refused> {
        let reply = ffi::keep_card(self.tables.lend(), self.work, table, ceiling);
        self.listed(reply, table)
    }

    fn listed<'t>(&self, reply: ffi::Reply, table: &'t [u8]) -> Result<Card<'t>, Refused> {
        Refused::unless_none(reply.refusal, 0, reply.visits)?;
        Ok(Card::new(table, reply.lines, self.flags().count(), reply.visits))
    }

    /// The reading on the card that is closest to a given one; every flag is given, on or off. The card is
    /// made in the lent table. Refusals 8, 34, 21, and 35 where the card has no line.
    pub fn closest<'t>(
        &mut self,
        on: &[i16],
        off: &[i16],
        table: &'t mut [u8],
        ceiling: u32,
    ) -> Result<Closest<'t>, Refused> {
        let mut reading = [0; ffi::FLAGS];
        let (tables, lent) = (self.tables.lend(), &mut reading);
        let told = ffi::closest(tables, self.work, on, off, table, lent, ceiling);
        Refused::unless_none(told.refusal, 0, told.visits)?;
        let flags = self.flags().count();
        let card = Card::new(table, told.lines, flags, told.visits);
        Ok(Closest::new(reading, flags, told.differs, card))
    }

    /// Writes the book as text into a lent table; [`LentBook::room`] bytes hold it. Refusal 31.
    ///
    /// Opening the text under the same limits gives the same book, with nothing learned; two books have equal
    /// texts exactly if they have the same variables, quantifiers and places, and the same rules in order.
    pub fn write<'t>(&self, table: &'t mut [u8]) -> Result<&'t [u8], Refused> {
        write(self.tables.cells, self.tables.literals, table)
    }

    /// A table of so many bytes holds the text of every book under this one's limits.
    pub fn room(&self) -> usize {
        ffi::book_room(self.tables.cells)
    }

    /// Serves one line of a session, without its newline, and answers in text in the lent table, which has
    /// [`room`](crate::room) bytes: `(refused N L)` has the line's number. The only refusal here is 31, of the
    /// table.
    pub fn line<'o>(
        &mut self,
        line: &[u8],
        number: u64,
        last: &mut LastCard,
        out: &'o mut [u8],
    ) -> Result<&'o [u8], Refused> {
        let (shown, cards) = (&mut last.shown, &mut *last.cards);
        let told = ffi::line(self.tables.lend(), self.work, line, number, shown, cards, out);
        Refused::unless_none(told.refusal, 0, 0)?;
        Ok(first(out, told.length))
    }
}

pub(crate) fn answered(reply: ffi::Reply) -> Result<Answer, Refused> {
    Refused::unless_none(reply.refusal, 0, reply.visits)?;
    let verdict = match reply.verdict {
        1 => Verdict::Keep,
        2 => Verdict::Swap,
        // 3: a query that is not refused has one of the three.
        _ => Verdict::Unsettled,
    };
    Ok(Answer { verdict, visits: reply.visits })
}

fn changed(reply: ffi::Reply) -> Result<(), Refused> {
    Refused::unless_none(reply.refusal, 0, reply.visits)
}

pub(crate) fn write<'t>(
    cells: &[u16],
    literals: &[i16],
    table: &'t mut [u8],
) -> Result<&'t [u8], Refused> {
    let told = ffi::write(cells, literals, table);
    Refused::unless_none(told.refusal, 0, 0)?;
    Ok(first(table, told.length))
}

/// Part of the cells: so many from an index on, or none where they are not there.
fn part(cells: &[u16], from: usize, count: usize) -> &[u16] {
    cells.get(from..from + count).unwrap_or_default()
}

/// Where the part of the levels begins, behind the limits and the numbers; so long is each part by place.
fn by_place(cells: &[u16]) -> usize {
    cells.first().map_or(0, |&numbers| usize::from(numbers)) + 1
}

/// The numbers of the flags: they stand first, at level 0. Of any cells at all.
pub(crate) fn flags(cells: &[u16]) -> impl Iterator<Item = i16> + '_ {
    let length = by_place(cells);
    let count = cells.get(2).map_or(0, |&count| usize::from(count));
    let (numbers, levels) = (part(cells, 3, count), part(cells, 2 + length + 1, count));
    let flags = numbers.iter().zip(levels).take_while(|(_, &level)| level == 0);
    // They are 1 to 1,000 where a book stands there.
    flags.take(ffi::FLAGS).map(|(&number, _)| number as i16)
}

pub(crate) fn rules(cells: &[u16]) -> usize {
    cells.get(2 + 3 * by_place(cells)).map_or(0, |&count| usize::from(count))
}

pub(crate) fn literals<'l>(cells: &'l [u16], line: &'l [u8]) -> impl Iterator<Item = i16> + 'l {
    flags(cells).zip(line).filter_map(|(flag, &byte)| match byte {
        OFF => Some(-flag),
        ON => Some(flag),
        _ => None,
    })
}
