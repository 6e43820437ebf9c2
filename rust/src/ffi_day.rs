//! The library's functions on a day, as `include/bullacetop.h` declares them. As in `ffi`, each function here hands on
//! pointers that it got from references and slices, with the slice's own length.

use crate::ffi::{Nearest, Opened, Reply, Tables, Workspace, Written, FLAGS};

/// Places of a day.
pub const PLACES: usize = 8;

/// `struct bullacetop_rooms`.
#[repr(C)]
#[derive(Clone, Copy)]
pub struct Rooms {
    pub cells: [usize; PLACES],
    pub literals: [usize; PLACES],
}

/// `struct bullacetop_accounts`.
#[repr(C)]
#[derive(Clone, Copy)]
pub struct Accounts {
    pub total: u32,
    pub used: [u32; PLACES],
    pub books: [u8; PLACES],
}

// As at the end of the header.
const _: () = assert!(std::mem::size_of::<Accounts>() == 44);

/// `struct bullacetop_share`.
#[repr(C)]
pub struct Share {
    pub refusal: u16,
    pub visits: u32,
}

/// Declares calls at a place. What of the accounts and the tables a call writes is in the header; here all of them are lent to
/// be written.
macro_rules! at_places {
    ($(fn $name:ident($($argument:ident: $type:ty),*) -> $reply:ty;)*) => {
        extern "C" {
            $(fn $name(
                accounts: *mut Accounts,
                rooms: *const Rooms,
                cells: *mut u16,
                cell_count: usize,
                literals: *mut i16,
                literal_count: usize,
                $($argument: $type),*
            ) -> $reply;)*
        }
    };
}

at_places! {
    fn bullacetop_day_open(
        place: usize, text: *const u8, count: usize, numbers: usize, rules: usize
    ) -> Opened;
    fn bullacetop_day_write(place: usize, table: *mut u8, length: usize) -> Written;
    fn bullacetop_day_rule(place: usize, list: *const i16, count: usize) -> Reply;
    fn bullacetop_day_one(place: usize, list: *const i16, count: usize) -> Reply;
    fn bullacetop_day_withdraw(place: usize) -> Reply;
    fn bullacetop_day_forget(place: usize) -> Reply;
    fn bullacetop_day_query(
        work: *mut Workspace, place: usize,
        on: *const i16, on_count: usize, off: *const i16, off_count: usize, ceiling: u32
    ) -> Reply;
    fn bullacetop_day_card(
        work: *mut Workspace, place: usize, table: *mut u8, length: usize, ceiling: u32
    ) -> Reply;
    fn bullacetop_day_keep_card(
        work: *mut Workspace, place: usize, table: *mut u8, length: usize, ceiling: u32
    ) -> Reply;
    fn bullacetop_day_closest(
        work: *mut Workspace, place: usize,
        on: *const i16, on_count: usize, off: *const i16, off_count: usize,
        table: *mut u8, length: usize, reading: *mut u8, ceiling: u32
    ) -> Nearest;
}

extern "C" {
    fn bullacetop_day_begin(accounts: *mut Accounts, total: u32);
    fn bullacetop_day_share(accounts: *const Accounts, place: usize) -> Share;
}

/// The accounts, where the places lie, and their long tables, lent.
pub struct Places<'a> {
    pub accounts: &'a mut Accounts,
    pub rooms: &'a Rooms,
    pub tables: Tables<'a>,
}

/// Makes a call at a place.
macro_rules! at {
    ($call:ident, $places:ident $(, $argument:expr)*) => {{
        let Places { accounts, rooms, tables } = $places;
        // Each is lent alone, so that none overlaps another or an argument.
        unsafe {
            $call(
                accounts,
                rooms,
                tables.cells.as_mut_ptr(),
                tables.cells.len(),
                tables.literals.as_mut_ptr(),
                tables.literals.len(),
                $($argument),*
            )
        }
    }};
}

pub fn begin(total: u32) -> Accounts {
    let mut accounts = Accounts { total: 0, used: [0; PLACES], books: [0; PLACES] };
    unsafe { bullacetop_day_begin(&mut accounts, total) };
    accounts
}

pub fn share(accounts: &Accounts, place: usize) -> Share {
    unsafe { bullacetop_day_share(accounts, place) }
}

pub fn open(places: Places, place: usize, text: &[u8], (numbers, rules): (usize, usize)) -> Opened {
    at!(bullacetop_day_open, places, place, text.as_ptr(), text.len(), numbers, rules)
}

pub fn write(places: Places, place: usize, table: &mut [u8]) -> Written {
    at!(bullacetop_day_write, places, place, table.as_mut_ptr(), table.len())
}

pub fn rule(places: Places, place: usize, list: &[i16]) -> Reply {
    at!(bullacetop_day_rule, places, place, list.as_ptr(), list.len())
}

pub fn one(places: Places, place: usize, list: &[i16]) -> Reply {
    at!(bullacetop_day_one, places, place, list.as_ptr(), list.len())
}

pub fn withdraw(places: Places, place: usize) -> Reply {
    at!(bullacetop_day_withdraw, places, place)
}

pub fn forget(places: Places, place: usize) -> Reply {
    at!(bullacetop_day_forget, places, place)
}

pub fn query(
    places: Places,
    work: &mut Workspace,
    place: usize,
    on: &[i16],
    off: &[i16],
    ceiling: u32,
) -> Reply {
    let (first, second) = (on.as_ptr(), off.as_ptr());
    at!(bullacetop_day_query, places, work, place, first, on.len(), second, off.len(), ceiling)
}

pub fn card(
    places: Places,
    work: &mut Workspace,
    place: usize,
    table: &mut [u8],
    ceiling: u32,
) -> Reply {
    at!(bullacetop_day_card, places, work, place, table.as_mut_ptr(), table.len(), ceiling)
}

pub fn keep_card(
    places: Places,
    work: &mut Workspace,
    place: usize,
    table: &mut [u8],
    ceiling: u32,
) -> Reply {
    at!(bullacetop_day_keep_card, places, work, place, table.as_mut_ptr(), table.len(), ceiling)
}

// As many as the header has.
#[allow(clippy::too_many_arguments)]
pub fn closest(
    places: Places,
    work: &mut Workspace,
    place: usize,
    on: &[i16],
    off: &[i16],
    table: &mut [u8],
    reading: &mut [u8; FLAGS],
    ceiling: u32,
) -> Nearest {
    at!(
        bullacetop_day_closest,
        places,
        work,
        place,
        on.as_ptr(),
        on.len(),
        off.as_ptr(),
        off.len(),
        table.as_mut_ptr(),
        table.len(),
        reading.as_mut_ptr(),
        ceiling
    )
}
