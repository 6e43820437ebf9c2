//! The library's calls at the places of a day. Tables, accounts and lists are lent between guards.

use crate::exports::{
    as_reply, said, said_of_nearest, workspace, workspace_kept, List, Nearest, Reply, Written,
};
use crate::guarded::Guarded;
use crate::rounds::days::{AtPlaces, Tables};
use compare::answer::LENT_BYTE;
use compare::day::PLACES;
use compare::options::MOST_FLAGS;
use compare::{Call, Said};

/// The total of a day, the visits used at each place, and which places have a book.
#[repr(C)]
#[derive(Clone, Copy, Debug, PartialEq, Eq)]
struct Accounts {
    total: u32,
    used: [u32; PLACES],
    books: [u8; PLACES],
}

/// How many cells and literals each place has.
#[repr(C)]
#[derive(Clone, Copy, Debug, PartialEq, Eq)]
struct Rooms {
    cells: [usize; PLACES],
    literals: [usize; PLACES],
}

#[repr(C)]
struct Told {
    refusal: u16,
    line: usize,
}

#[repr(C)]
struct Share {
    refusal: u16,
    visits: u32,
}

type AddCall = unsafe extern "C" fn(
    accounts: *const Accounts,
    rooms: *const Rooms,
    cells: *mut u16,
    cell_count: usize,
    literals: *mut i16,
    literal_count: usize,
    place: usize,
    list: *const i16,
    count: usize,
) -> Reply;

extern "C" {
    fn bullacetop_day_begin(accounts: *mut Accounts, total: u32);
    fn bullacetop_day_share(accounts: *const Accounts, place: usize) -> Share;
    fn bullacetop_day_open(
        accounts: *mut Accounts,
        rooms: *const Rooms,
        cells: *mut u16,
        cell_count: usize,
        literals: *mut i16,
        literal_count: usize,
        place: usize,
        text: *const u8,
        length: usize,
        numbers: usize,
        rules: usize,
    ) -> Told;
    fn bullacetop_day_rule(
        accounts: *const Accounts,
        rooms: *const Rooms,
        cells: *mut u16,
        cell_count: usize,
        literals: *mut i16,
        literal_count: usize,
        place: usize,
        list: *const i16,
        count: usize,
    ) -> Reply;
    fn bullacetop_day_one(
        accounts: *const Accounts,
        rooms: *const Rooms,
        cells: *mut u16,
        cell_count: usize,
        literals: *mut i16,
        literal_count: usize,
        place: usize,
        list: *const i16,
        count: usize,
    ) -> Reply;
    fn bullacetop_day_withdraw(
        accounts: *const Accounts,
        rooms: *const Rooms,
        cells: *mut u16,
        cell_count: usize,
        literals: *mut i16,
        literal_count: usize,
        place: usize,
    ) -> Reply;
    fn bullacetop_day_forget(
        accounts: *const Accounts,
        rooms: *const Rooms,
        cells: *mut u16,
        cell_count: usize,
        literals: *const i16,
        literal_count: usize,
        place: usize,
    ) -> Reply;
    fn bullacetop_day_query(
        accounts: *mut Accounts,
        rooms: *const Rooms,
        cells: *mut u16,
        cell_count: usize,
        literals: *mut i16,
        literal_count: usize,
        work: *mut u64,
        place: usize,
        on: *const i16,
        on_count: usize,
        off: *const i16,
        off_count: usize,
        ceiling: u32,
    ) -> Reply;
    fn bullacetop_day_card(
        accounts: *mut Accounts,
        rooms: *const Rooms,
        cells: *mut u16,
        cell_count: usize,
        literals: *mut i16,
        literal_count: usize,
        work: *mut u64,
        place: usize,
        table: *mut u8,
        length: usize,
        ceiling: u32,
    ) -> Reply;
    fn bullacetop_day_keep_card(
        accounts: *mut Accounts,
        rooms: *const Rooms,
        cells: *mut u16,
        cell_count: usize,
        literals: *mut i16,
        literal_count: usize,
        work: *mut u64,
        place: usize,
        table: *mut u8,
        length: usize,
        ceiling: u32,
    ) -> Reply;
    fn bullacetop_day_closest(
        accounts: *mut Accounts,
        rooms: *const Rooms,
        cells: *mut u16,
        cell_count: usize,
        literals: *mut i16,
        literal_count: usize,
        work: *mut u64,
        place: usize,
        on: *const i16,
        on_count: usize,
        off: *const i16,
        off_count: usize,
        table: *mut u8,
        length: usize,
        reading: *mut u8,
        ceiling: u32,
    ) -> Nearest;
    fn bullacetop_day_write(
        accounts: *const Accounts,
        rooms: *const Rooms,
        cells: *const u16,
        cell_count: usize,
        literals: *const i16,
        literal_count: usize,
        place: usize,
        table: *mut u8,
        length: usize,
    ) -> Written;
}

/// What is lent to a call, between guards.
struct Lent {
    accounts: Accounts,
    rooms: Rooms,
    cells: Guarded<u16>,
    literals: Guarded<i16>,
}

impl Lent {
    fn of(tables: &Tables) -> Lent {
        let Tables { total, used, books, .. } = *tables;
        Lent {
            accounts: Accounts { total, used, books },
            rooms: Rooms {
                cells: tables.rooms.map(|room| room.0),
                literals: tables.rooms.map(|room| room.1),
            },
            cells: Guarded::new(&tables.cells, 0x5C5C),
            literals: Guarded::new(&tables.literals, 0x5C5C),
        }
    }

    /// As the call left it.
    fn back(self, tables: &mut Tables) -> Result<(), String> {
        let Lent { accounts, rooms, cells, literals } = self;
        let given = Lent::of(tables);
        cells.kept()?;
        literals.kept()?;
        workspace_kept()?;
        if rooms != given.rooms || accounts.total != given.accounts.total {
            return Err("the rooms or the total are written".into());
        }
        (tables.used, tables.books) = (accounts.used, accounts.books);
        tables.cells.copy_from_slice(cells.inner());
        tables.literals.copy_from_slice(literals.inner());
        Ok(())
    }

    fn add(&mut self, call: AddCall, place: usize, numbers: &[i16]) -> Result<Reply, String> {
        let (accounts, rooms) = (&self.accounts as *const _, &self.rooms as *const _);
        let (m, n) = (self.cells.inner().len(), self.literals.inner().len());
        let (cells, literals) = (self.cells.at(), self.literals.at());
        let (list, count) = (List::new(numbers), numbers.len());
        let reply =
            unsafe { call(accounts, rooms, cells, m, literals, n, place, list.at(), count) };
        list.kept(numbers)?;
        Ok(reply)
    }

    fn call(
        &mut self,
        place: usize,
        call: &Call,
        ceiling: u32,
        table: &mut Guarded<u8>,
    ) -> Result<(Said, u64), String> {
        let (accounts, rooms) = (&mut self.accounts as *mut Accounts, &self.rooms as *const Rooms);
        let (m, n) = (self.cells.inner().len(), self.literals.inner().len());
        let (cells, rows) = (self.cells.at(), self.literals.at());
        let (size, out, work) = (table.inner().len(), table.at(), workspace());
        let reply = match call {
            Call::Rule(numbers) => self.add(bullacetop_day_rule, place, numbers)?,
            Call::One(numbers) => self.add(bullacetop_day_one, place, numbers)?,
            Call::Withdraw => unsafe {
                bullacetop_day_withdraw(accounts, rooms, cells, m, rows, n, place)
            },
            Call::Forget => unsafe {
                bullacetop_day_forget(accounts, rooms, cells, m, rows, n, place)
            },
            Call::Card(_) => unsafe {
                bullacetop_day_card(
                    accounts, rooms, cells, m, rows, n, work, place, out, size, ceiling,
                )
            },
            Call::KeepCard(_) => unsafe {
                bullacetop_day_keep_card(
                    accounts, rooms, cells, m, rows, n, work, place, out, size, ceiling,
                )
            },
            Call::Write(_) => as_reply(unsafe {
                bullacetop_day_write(accounts, rooms, cells, m, rows, n, place, out, size)
            }),
            Call::Query(reading) => {
                let (on, off) = (List::new(&reading.on), List::new(&reading.off));
                let (k, j) = (reading.on.len(), reading.off.len());
                let reply = unsafe {
                    bullacetop_day_query(
                        accounts,
                        rooms,
                        cells,
                        m,
                        rows,
                        n,
                        work,
                        place,
                        on.at(),
                        k,
                        off.at(),
                        j,
                        ceiling,
                    )
                };
                on.kept(&reading.on)?;
                off.kept(&reading.off)?;
                reply
            }
            Call::Closest(reading, _) => {
                let (on, off) = (List::new(&reading.on), List::new(&reading.off));
                let (k, j) = (reading.on.len(), reading.off.len());
                let mut values = Guarded::new(&[LENT_BYTE; MOST_FLAGS], 0x5C);
                let nearest = unsafe {
                    bullacetop_day_closest(
                        accounts,
                        rooms,
                        cells,
                        m,
                        rows,
                        n,
                        work,
                        place,
                        on.at(),
                        k,
                        off.at(),
                        j,
                        out,
                        size,
                        values.at(),
                        ceiling,
                    )
                };
                on.kept(&reading.on)?;
                off.kept(&reading.off)?;
                values.kept()?;
                let values = values.inner().try_into().expect("40 bytes");
                return Ok((said_of_nearest(&nearest, values)?, nearest.visits));
            }
        };
        Ok((said(call, &reply)?, reply.visits))
    }
}

/// The compiled calls.
pub struct Exports;

impl AtPlaces for Exports {
    fn begin(&mut self, tables: &mut Tables, total: u32) -> Result<(), String> {
        let mut lent = Lent::of(tables);
        unsafe { bullacetop_day_begin(&mut lent.accounts, total) };
        tables.total = lent.accounts.total;
        lent.back(tables)
    }

    fn open(
        &mut self,
        tables: &mut Tables,
        place: usize,
        text: &[u8],
        (numbers, rules): (usize, usize),
    ) -> Result<(u16, usize), String> {
        let mut lent = Lent::of(tables);
        let (m, n) = (lent.cells.inner().len(), lent.literals.inner().len());
        let (cells, rows) = (lent.cells.at(), lent.literals.at());
        let (accounts, rooms) = (&mut lent.accounts as *mut Accounts, &lent.rooms as *const Rooms);
        let (at, count): (Box<[u8]>, usize) = (text.into(), text.len());
        let Told { refusal, line } = unsafe {
            bullacetop_day_open(
                accounts,
                rooms,
                cells,
                m,
                rows,
                n,
                place,
                at.as_ptr(),
                count,
                numbers,
                rules,
            )
        };
        if *at != *text {
            return Err("a lent text is written".into());
        }
        lent.back(tables)?;
        Ok((refusal, line))
    }

    fn share(&mut self, tables: &Tables, place: usize) -> Result<(u16, u32), String> {
        let lent = Lent::of(tables);
        let Share { refusal, visits } = unsafe { bullacetop_day_share(&lent.accounts, place) };
        Ok((refusal, visits))
    }

    fn call(
        &mut self,
        tables: &mut Tables,
        place: usize,
        call: &Call,
        ceiling: u32,
        table: &mut [u8],
    ) -> Result<(Said, u64), String> {
        let (mut lent, mut out) = (Lent::of(tables), Guarded::new(table, 0x5C));
        let told = lent.call(place, call, ceiling, &mut out)?;
        lent.back(tables)?;
        out.kept()?;
        table.copy_from_slice(out.inner());
        Ok(told)
    }
}
