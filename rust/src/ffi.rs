//! The library's functions, as `include/bullacetop.h` declares them: with `ffi_day` the modules with `unsafe`.
//!
//! What the library asks of a caller is that pointers can be read, or written, for the lengths told,
//! and that nothing overlaps what a call writes. References and slices have that from the language:
//! each function here hands on pointers that it got from them, with the slice's own length. The library
//! checks what stands in the tables itself, and keeps no pointer.

use std::cell::Cell;

const HIGHEST_NUMBERS: usize = 1_000;
const HIGHEST_RULES: usize = 4_000;
const LITERALS: usize = 16;
const ENTRIES: usize = 64;
/// Bytes of a closest reading.
pub const FLAGS: usize = 40;
/// The codes of literals, two for each place, none included.
const CODES: usize = (HIGHEST_NUMBERS + 1) * 2;
/// The words of a set of rules.
const ROW_WORDS: usize = (HIGHEST_RULES / 256 + 1) * 4;

// As at the end of the header; and a length there is a `size_t`, which has 64 bits.
const _: () = assert!(std::mem::size_of::<Workspace>() == 5_006_952);
const _: () = assert!(usize::BITS == 64);

/// `rules` of `struct bullacetop_workspace`.
#[repr(C)]
struct Matrix {
    rows: [u16; HIGHEST_RULES * (LITERALS + 1)],
    sets: [u64; CODES * 2 * ROW_WORDS],
    quantifiers: [u8; CODES],
}

/// `trail` of `struct bullacetop_workspace`.
#[repr(C)]
struct Trail {
    satisfied: [u64; (HIGHEST_NUMBERS + 1) * ROW_WORDS],
    marks: [u8; HIGHEST_NUMBERS + 1],
    made: [u16; HIGHEST_NUMBERS * 2],
    joined: [u16; HIGHEST_NUMBERS * 2],
}

/// What a search works in, whatever the limits of its book: some five million bytes, too many for most
/// stacks. Nothing in it is kept from one call to the next, so that one workspace serves any number of
/// books.
// `struct bullacetop_workspace`. Every bit pattern is a value of it.
#[repr(C)]
pub struct Workspace {
    rules: Matrix,
    bar_cells: [u16; ENTRIES * (HIGHEST_NUMBERS + 1)],
    bar_links: [u64; CODES + 2 + ENTRIES],
    bar_masks: [u64; ENTRIES],
    pass_cells: [u16; ENTRIES * (HIGHEST_NUMBERS + 1)],
    pass_links: [u64; CODES + 2 + ENTRIES],
    pass_masks: [u64; ENTRIES],
    trail: Trail,
    statuses: [u8; CODES],
    aside: [u16; HIGHEST_NUMBERS * HIGHEST_NUMBERS],
    places: [u16; HIGHEST_NUMBERS + 1],
    kinds: [u16; HIGHEST_NUMBERS + 1],
    values: [u8; HIGHEST_NUMBERS + 1],
}

impl Workspace {
    /// One for a `static`, where it takes no heap and no stack:
    ///
    /// ```
    /// use bullacetop::Workspace;
    /// use std::sync::Mutex;
    ///
    /// static WORK: Mutex<Workspace> = Mutex::new(Workspace::zeroed());
    /// assert!(WORK.lock().is_ok());
    /// ```
    pub const fn zeroed() -> Workspace {
        // Zeros are a value of it.
        unsafe { std::mem::zeroed() }
    }

    /// One on the heap, where it is made.
    pub fn boxed() -> Box<Workspace> {
        let layout = std::alloc::Layout::new::<Workspace>();
        // Zeros are a value of it, and it is not empty.
        unsafe {
            let made = std::alloc::alloc_zeroed(layout).cast::<Workspace>();
            if made.is_null() {
                std::alloc::handle_alloc_error(layout);
            }
            Box::from_raw(made)
        }
    }
}

thread_local! {
    // The workspace of a thread, but while a call has it.
    static LENT: Cell<Option<Box<Workspace>>> = const { Cell::new(None) };
}

/// A call with the workspace of this thread, which serves all its books: nothing in it is kept from one call
/// to the next. It is made at the thread's first call.
pub(crate) fn with_workspace<R>(call: impl FnOnce(&mut Workspace) -> R) -> R {
    let kept = LENT.try_with(Cell::take).ok().flatten();
    let mut work = kept.unwrap_or_else(Workspace::boxed);
    let told = call(&mut work);
    // Where the thread is ending there is no place to keep it.
    let _ = LENT.try_with(|lent| lent.set(Some(work)));
    told
}

/// The two tables of a book, lent: of as many cells and literals as [`Limits`](crate::Limits) say, or
/// more. What stands in them before a book is opened means nothing.
#[derive(Debug)]
pub struct Tables<'a> {
    /// The limits, the variables, and how many rules and learned entries stand, with their lengths.
    pub cells: &'a mut [u16],
    /// The literals of the rules and of what was learned.
    pub literals: &'a mut [i16],
}

impl Tables<'_> {
    /// The same tables, lent on.
    pub fn lend(&mut self) -> Tables<'_> {
        Tables { cells: self.cells, literals: self.literals }
    }
}

/// `struct bullacetop_reply`.
#[repr(C)]
pub struct Reply {
    pub refusal: u16,
    pub verdict: u16,
    pub lines: usize,
    pub visits: u64,
}

/// `struct bullacetop_closest`.
#[repr(C)]
pub struct Nearest {
    pub refusal: u16,
    pub differs: usize,
    pub lines: usize,
    pub visits: u64,
}

/// `struct bullacetop_written`.
#[repr(C)]
pub struct Written {
    pub refusal: u16,
    pub length: usize,
}

/// `struct bullacetop_converted`.
#[repr(C)]
pub struct Converted {
    pub refusal: u16,
    pub line: usize,
    pub length: usize,
}

/// `struct bullacetop_shown`.
#[repr(C)]
#[derive(Clone, Copy, Debug)]
pub struct Shown {
    refusal: u16,
    size: usize,
    lines: usize,
    flags: usize,
}

/// `struct bullacetop_spoken`.
#[repr(C)]
struct Spoken {
    refusal: u16,
    length: usize,
    shown: Shown,
}

/// `struct bullacetop_book_opened`.
#[repr(C)]
pub struct Opened {
    pub refusal: u16,
    pub line: usize,
}

/// Declares calls on the two tables of a book. What of them a call writes is in the header; here both are
/// lent to be written, but to the one call that writes neither.
macro_rules! on_tables {
    ($(fn $name:ident($($argument:ident: $type:ty),*) -> $reply:ty;)*) => {
        extern "C" {
            $(fn $name(
                cells: *mut u16,
                cell_count: usize,
                literals: *mut i16,
                literal_count: usize,
                $($argument: $type),*
            ) -> $reply;)*
        }
    };
}

on_tables! {
    fn bullacetop_book_rule(list: *const i16, count: usize) -> Reply;
    fn bullacetop_book_one(list: *const i16, count: usize) -> Reply;
    fn bullacetop_book_withdraw() -> Reply;
    fn bullacetop_book_forget() -> Reply;
    fn bullacetop_book_query(
        work: *mut Workspace,
        on: *const i16, on_count: usize, off: *const i16, off_count: usize, ceiling: u32
    ) -> Reply;
    fn bullacetop_book_card(
        work: *mut Workspace, table: *mut u8, length: usize, ceiling: u32
    ) -> Reply;
    fn bullacetop_book_keep_card(
        work: *mut Workspace, table: *mut u8, length: usize, ceiling: u32
    ) -> Reply;
    fn bullacetop_book_closest(
        work: *mut Workspace,
        on: *const i16, on_count: usize, off: *const i16, off_count: usize,
        table: *mut u8, length: usize, reading: *mut u8, ceiling: u32
    ) -> Nearest;
    fn bullacetop_book_line(
        work: *mut Workspace,
        line: *const u8, count: usize, number: u64,
        shown: Shown, cards: *mut u8, out: *mut u8, room: usize
    ) -> Spoken;
}

/// Declares what reads a text under limits, onto the two tables of a book.
macro_rules! of_texts {
    ($(fn $name:ident($($argument:ident: $type:ty),*) -> $reply:ty;)*) => {
        extern "C" {
            $(fn $name(
                text: *const u8,
                count: usize,
                numbers: usize,
                rules: usize,
                cells: *mut u16,
                cell_count: usize,
                literals: *mut i16,
                literal_count: usize,
                $($argument: $type),*
            ) -> $reply;)*
        }
    };
}

of_texts! {
    fn bullacetop_book_open() -> Opened;
    fn bullacetop_book_open_qdimacs() -> Opened;
    fn bullacetop_book_tag(table: *mut u8, size: usize) -> Converted;
    fn bullacetop_book_untag(table: *mut u8, size: usize) -> Converted;
    fn bullacetop_book_print(work: *mut Workspace, out: *mut u8, room: usize) -> Written;
}

extern "C" {
    #[cfg(test)]
    fn bullacetop_book_cells(numbers: usize, rules: usize) -> usize;
    #[cfg(test)]
    fn bullacetop_book_literals(numbers: usize, rules: usize) -> usize;
    fn bullacetop_book_room(cells: *const u16, cell_count: usize) -> usize;
    fn bullacetop_book_write(
        cells: *const u16,
        cell_count: usize,
        literals: *const i16,
        literal_count: usize,
        table: *mut u8,
        length: usize,
    ) -> Written;
    fn bullacetop_page(
        table: *const u8,
        length: usize,
        lines: usize,
        flags: usize,
        number: usize,
        out: *mut u8,
        room: usize,
    ) -> u16;
    fn bullacetop_no_card() -> Shown;
    fn bullacetop_room() -> usize;
}

/// Makes a call on two tables that are lent to be written.
macro_rules! lend {
    ($call:ident, $tables:ident $(, $argument:expr)*) => {{
        let (cells, literals) = (&mut *$tables.cells, &mut *$tables.literals);
        // Both are lent alone, so that neither overlaps the other or an argument.
        unsafe {
            $call(
                cells.as_mut_ptr(),
                cells.len(),
                literals.as_mut_ptr(),
                literals.len(),
                $($argument),*
            )
        }
    }};
}

/// Reads a text onto two tables that are lent to be written.
macro_rules! read {
    ($call:ident, $text:ident, $limits:ident, $tables:ident $(, $argument:expr)*) => {{
        let (cells, literals) = (&mut *$tables.cells, &mut *$tables.literals);
        // As above.
        unsafe {
            $call(
                $text.as_ptr(),
                $text.len(),
                $limits.0,
                $limits.1,
                cells.as_mut_ptr(),
                cells.len(),
                literals.as_mut_ptr(),
                literals.len(),
                $($argument),*
            )
        }
    }};
}

/// Cells and literals of a book under limits, as the library counts them.
#[cfg(test)]
pub fn lengths((numbers, rules): (usize, usize)) -> (usize, usize) {
    unsafe { (bullacetop_book_cells(numbers, rules), bullacetop_book_literals(numbers, rules)) }
}

pub fn book_room(cells: &[u16]) -> usize {
    unsafe { bullacetop_book_room(cells.as_ptr(), cells.len()) }
}

pub fn open(text: &[u8], limits: (usize, usize), tables: Tables) -> Opened {
    read!(bullacetop_book_open, text, limits, tables)
}

pub fn open_qdimacs(text: &[u8], limits: (usize, usize), tables: Tables) -> Opened {
    read!(bullacetop_book_open_qdimacs, text, limits, tables)
}

pub fn tag(text: &[u8], limits: (usize, usize), tables: Tables, table: &mut [u8]) -> Converted {
    read!(bullacetop_book_tag, text, limits, tables, table.as_mut_ptr(), table.len())
}

pub fn untag(text: &[u8], limits: (usize, usize), tables: Tables, table: &mut [u8]) -> Converted {
    read!(bullacetop_book_untag, text, limits, tables, table.as_mut_ptr(), table.len())
}

pub fn print(
    text: &[u8],
    limits: (usize, usize),
    tables: Tables,
    work: &mut Workspace,
    out: &mut [u8],
) -> Written {
    read!(bullacetop_book_print, text, limits, tables, work, out.as_mut_ptr(), out.len())
}

pub fn rule(tables: Tables, list: &[i16]) -> Reply {
    lend!(bullacetop_book_rule, tables, list.as_ptr(), list.len())
}

pub fn one(tables: Tables, list: &[i16]) -> Reply {
    lend!(bullacetop_book_one, tables, list.as_ptr(), list.len())
}

pub fn withdraw(tables: Tables) -> Reply {
    lend!(bullacetop_book_withdraw, tables)
}

pub fn forget(tables: Tables) -> Reply {
    lend!(bullacetop_book_forget, tables)
}

pub fn query(tables: Tables, work: &mut Workspace, on: &[i16], off: &[i16], ceiling: u32) -> Reply {
    let (first, second) = (on.as_ptr(), off.as_ptr());
    lend!(bullacetop_book_query, tables, work, first, on.len(), second, off.len(), ceiling)
}

pub fn card(tables: Tables, work: &mut Workspace, table: &mut [u8], ceiling: u32) -> Reply {
    lend!(bullacetop_book_card, tables, work, table.as_mut_ptr(), table.len(), ceiling)
}

pub fn keep_card(tables: Tables, work: &mut Workspace, table: &mut [u8], ceiling: u32) -> Reply {
    lend!(bullacetop_book_keep_card, tables, work, table.as_mut_ptr(), table.len(), ceiling)
}

pub fn closest(
    tables: Tables,
    work: &mut Workspace,
    on: &[i16],
    off: &[i16],
    table: &mut [u8],
    reading: &mut [u8; FLAGS],
    ceiling: u32,
) -> Nearest {
    lend!(
        bullacetop_book_closest,
        tables,
        work,
        on.as_ptr(),
        on.len(),
        off.as_ptr(),
        off.len(),
        table.as_mut_ptr(),
        table.len(),
        reading.as_mut_ptr(),
        ceiling
    )
}

pub fn write(cells: &[u16], literals: &[i16], table: &mut [u8]) -> Written {
    // Of the book nothing is written.
    unsafe {
        bullacetop_book_write(
            cells.as_ptr(),
            cells.len(),
            literals.as_ptr(),
            literals.len(),
            table.as_mut_ptr(),
            table.len(),
        )
    }
}

/// The refusal of a page.
pub fn page(table: &[u8], lines: usize, flags: usize, number: usize, out: &mut [u8]) -> u16 {
    let (from, to) = (table.as_ptr(), out.as_mut_ptr());
    unsafe { bullacetop_page(from, table.len(), lines, flags, number, to, out.len()) }
}

pub fn no_card() -> Shown {
    unsafe { bullacetop_no_card() }
}

pub fn room() -> usize {
    unsafe { bullacetop_room() }
}

/// The bytes of a session's table of cards.
pub const CARD_TABLE: usize = 65_536;

/// One line of a session. The card answered last is written where the given one stands.
pub fn line(
    tables: Tables,
    work: &mut Workspace,
    line: &[u8],
    number: u64,
    shown: &mut Shown,
    cards: &mut [u8; CARD_TABLE],
    out: &mut [u8],
) -> Written {
    let (text, count) = (line.as_ptr(), line.len());
    let (cards, room, out) = (cards.as_mut_ptr(), out.len(), out.as_mut_ptr());
    let spoken =
        lend!(bullacetop_book_line, tables, work, text, count, number, *shown, cards, out, room);
    *shown = spoken.shown;
    Written { refusal: spoken.refusal, length: spoken.length }
}
