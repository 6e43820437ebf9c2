//! A day: up to eight books that share one total of visits.

use crate::card::{first, Card};
use crate::ffi::{self, Tables, Workspace};
use crate::ffi_day::{self as day, Accounts, Places, Rooms};
use crate::lent::{answered, Answer, Closest};
use crate::limits::Limits;
use crate::refusal::Refused;

/// Places of a day, which count from 1.
pub const PLACES: usize = day::PLACES;

/// Up to eight books, at places 1 to 8, that share one total of visits.
///
/// Each place has a floor of the total / 8, rounded down. A call may use what is left of its place's floor, and what is
/// neither used nor still owed to any floor; a search that would make more visits is refused with 37 where its own
/// ceiling is higher, otherwise with 34. Apart from that limit a book answers as if alone. A call at a place without a
/// book, or outside 1 to 8, is refused with 38.
///
/// ```
/// use bullacetop::{Day, Limits, Refusal, HIGHEST_CEILING};
///
/// # fn main() -> Result<(), bullacetop::Refused> {
/// let mut day = Day::begin(80, [Limits { numbers: 9, rules: 20 }; 8]);
/// day.open(1, b"(book 1)\n(flags 7 9)\n(rule 7 (no 9))\n(end)\n")?;
/// let mut table = [0; 16];
/// let visits = day.card(1, &mut table, HIGHEST_CEILING)?.visits();
/// assert_eq!(u64::from(day.used(1)), visits);
/// assert_eq!(day.share(2)?, 10);
/// assert_eq!(day.rule(2, &[7]).unwrap_err().refusal, Refusal::NoBook);
/// # Ok(())
/// # }
/// ```
pub struct Day {
    accounts: Accounts,
    limits: [Limits; PLACES],
    rooms: Rooms,
    cells: Box<[u16]>,
    literals: Box<[i16]>,
    // For the searches of all places; nothing in it is kept from one call to the next.
    work: Box<Workspace>,
}

impl Day {
    /// A day with no book yet, and nothing used; each place has room for a book under its limits.
    pub fn begin(total: u32, limits: [Limits; PLACES]) -> Day {
        let rooms =
            Rooms { cells: limits.map(Limits::cells), literals: limits.map(Limits::literals) };
        Day {
            accounts: day::begin(total),
            limits,
            rooms,
            cells: vec![0; rooms.cells.iter().sum()].into_boxed_slice(),
            literals: vec![0; rooms.literals.iter().sum()].into_boxed_slice(),
            work: Workspace::boxed(),
        }
    }

    fn lend(&mut self) -> (Places<'_>, &mut Workspace) {
        let tables = Tables { cells: &mut self.cells, literals: &mut self.literals };
        (Places { accounts: &mut self.accounts, rooms: &self.rooms, tables }, &mut self.work)
    }

    /// Opens a text of edition 1 or 2 at a place, under the limits of the place. A refused text leaves it without a
    /// book. Refusals 38 outside 1 to 8, and as [`Book::open`](crate::Book::open).
    pub fn open(&mut self, place: usize, text: &[u8]) -> Result<(), Refused> {
        let limits = place.checked_sub(1).and_then(|index| self.limits.get(index));
        let pair = limits.map_or((0, 0), |limits| limits.pair());
        let opened = day::open(self.lend().0, place, text, pair);
        Refused::unless_none(opened.refusal, opened.line, 0)
    }

    /// The visits used at a place; 0 outside 1 to 8.
    pub fn used(&self, place: usize) -> u32 {
        place.checked_sub(1).and_then(|index| self.accounts.used.get(index)).map_or(0, |&used| used)
    }

    /// What a call at a place may still use, with a book or not. Refusal 38 outside 1 to 8.
    pub fn share(&self, place: usize) -> Result<u32, Refused> {
        let share = day::share(&self.accounts, place);
        Refused::unless_none(share.refusal, 0, 0)?;
        Ok(share.visits)
    }

    // The cells of a place: its flags stand there.
    fn cells_at(&self, place: usize) -> &[u16] {
        let index = place.saturating_sub(1).min(PLACES - 1);
        let start: usize = self.rooms.cells.iter().take(index).sum();
        self.cells.get(start..start + self.rooms.cells[index]).unwrap_or_default()
    }

    fn flags(&self, place: usize) -> usize {
        crate::lent::flags(self.cells_at(place)).count()
    }

    /// A line of a card of the book at a place, or a reading, as literals; open flags are left out.
    pub fn literals(&self, place: usize, line: &[u8]) -> Vec<i16> {
        crate::lent::literals(self.cells_at(place), line).collect()
    }

    /// [`Book::rule`](crate::Book::rule) at a place.
    pub fn rule(&mut self, place: usize, literals: &[i16]) -> Result<(), Refused> {
        changed(day::rule(self.lend().0, place, literals))
    }

    /// [`Book::one`](crate::Book::one) at a place.
    pub fn one(&mut self, place: usize, literals: &[i16]) -> Result<(), Refused> {
        changed(day::one(self.lend().0, place, literals))
    }

    /// [`Book::withdraw`](crate::Book::withdraw) at a place.
    pub fn withdraw(&mut self, place: usize) -> Result<(), Refused> {
        changed(day::withdraw(self.lend().0, place))
    }

    /// [`Book::forget`](crate::Book::forget) at a place.
    pub fn forget(&mut self, place: usize) -> Result<(), Refused> {
        changed(day::forget(self.lend().0, place))
    }

    /// [`Book::query`](crate::Book::query) at a place; 37 too.
    pub fn query(
        &mut self,
        place: usize,
        on: &[i16],
        off: &[i16],
        ceiling: u32,
    ) -> Result<Answer, Refused> {
        let (places, work) = self.lend();
        answered(day::query(places, work, place, on, off, ceiling))
    }

    /// [`Book::card`](crate::Book::card) at a place; 37 too.
    pub fn card<'t>(
        &mut self,
        place: usize,
        table: &'t mut [u8],
        ceiling: u32,
    ) -> Result<Card<'t>, Refused> {
        let (places, work) = self.lend();
        let reply = day::card(places, work, place, table, ceiling);
        self.listed(place, reply, table)
    }

    /// [`Book::keep_card`](crate::Book::keep_card) at a place; 37 too.
    pub fn keep_card<'t>(
        &mut self,
        place: usize,
        table: &'t mut [u8],
        ceiling: u32,
    ) -> Result<Card<'t>, Refused> {
        let (places, work) = self.lend();
        let reply = day::keep_card(places, work, place, table, ceiling);
        self.listed(place, reply, table)
    }

    fn listed<'t>(
        &self,
        place: usize,
        reply: ffi::Reply,
        table: &'t [u8],
    ) -> Result<Card<'t>, Refused> {
        Refused::unless_none(reply.refusal, 0, reply.visits)?;
        Ok(Card::new(table, reply.lines, self.flags(place), reply.visits))
    }

    /// [`Book::closest`](crate::Book::closest) at a place; 37 too.
    pub fn closest<'t>(
        &mut self,
        place: usize,
        on: &[i16],
        off: &[i16],
        table: &'t mut [u8],
        ceiling: u32,
    ) -> Result<Closest<'t>, Refused> {
        let mut reading = [0; ffi::FLAGS];
        let (places, work) = self.lend();
        let told = day::closest(places, work, place, on, off, table, &mut reading, ceiling);
        Refused::unless_none(told.refusal, 0, told.visits)?;
        let flags = self.flags(place);
        let card = Card::new(table, told.lines, flags, told.visits);
        Ok(Closest::new(reading, flags, told.differs, card))
    }

    /// [`Book::write`](crate::Book::write) at a place.
    pub fn write<'t>(&mut self, place: usize, table: &'t mut [u8]) -> Result<&'t [u8], Refused> {
        let told = day::write(self.lend().0, place, table);
        Refused::unless_none(told.refusal, 0, 0)?;
        Ok(first(table, told.length))
    }
}

fn changed(reply: ffi::Reply) -> Result<(), Refused> {
    Refused::unless_none(reply.refusal, 0, reply.visits)
}
