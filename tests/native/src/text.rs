//! The library's functions on texts: opened, converted, printed, and answered line by line. Whatever is lent stands between
//! guards.

use crate::exports::{workspace, workspace_kept, Written};
use crate::guarded::Guarded;
use compare::answer::LENT_BYTE;
use compare::page::Card;
use compare::slices::{Cells, Rows, Slices};
use compare::Limits;
use std::ptr;

/// The card answered last, beside the table of its lines.
#[repr(C)]
#[derive(Clone, Copy, Debug, PartialEq, Eq)]
pub struct Shown {
    pub refusal: u16,
    pub size: usize,
    pub lines: usize,
    pub flags: usize,
}

/// A line's answer: where the refusal is 0 the length of its text.
#[repr(C)]
#[derive(Clone, Copy)]
struct Spoken {
    refusal: u16,
    length: usize,
    shown: Shown,
}

#[repr(C)]
#[derive(Clone, Copy, Debug, PartialEq, Eq)]
struct Told {
    refusal: u16,
    line: usize,
}

/// What a conversion answers: where the refusal is 0 the length of the converted text.
#[derive(Clone, Copy, Debug, PartialEq, Eq)]
#[repr(C)]
pub struct Converted {
    pub refusal: u16,
    pub line: usize,
    pub length: usize,
}

type OpenCall = unsafe extern "C" fn(
    text: *const u8,
    count: usize,
    numbers: usize,
    rules: usize,
    cells: *mut u16,
    cell_count: usize,
    literals: *mut i16,
    literal_count: usize,
) -> Told;

type ConvertCall = unsafe extern "C" fn(
    text: *const u8,
    count: usize,
    numbers: usize,
    rules: usize,
    cells: *mut u16,
    cell_count: usize,
    literals: *mut i16,
    literal_count: usize,
    table: *mut u8,
    size: usize,
) -> Converted;

extern "C" {
    fn bullacetop_room() -> usize;
    fn bullacetop_no_card() -> Shown;
    fn bullacetop_book_open(
        text: *const u8,
        count: usize,
        numbers: usize,
        rules: usize,
        cells: *mut u16,
        cell_count: usize,
        literals: *mut i16,
        literal_count: usize,
    ) -> Told;
    fn bullacetop_book_open_qdimacs(
        text: *const u8,
        count: usize,
        numbers: usize,
        rules: usize,
        cells: *mut u16,
        cell_count: usize,
        literals: *mut i16,
        literal_count: usize,
    ) -> Told;
    fn bullacetop_book_tag(
        text: *const u8,
        count: usize,
        numbers: usize,
        rules: usize,
        cells: *mut u16,
        cell_count: usize,
        literals: *mut i16,
        literal_count: usize,
        table: *mut u8,
        size: usize,
    ) -> Converted;
    fn bullacetop_book_untag(
        text: *const u8,
        count: usize,
        numbers: usize,
        rules: usize,
        cells: *mut u16,
        cell_count: usize,
        literals: *mut i16,
        literal_count: usize,
        table: *mut u8,
        size: usize,
    ) -> Converted;
    fn bullacetop_book_print(
        text: *const u8,
        count: usize,
        numbers: usize,
        rules: usize,
        cells: *mut u16,
        cell_count: usize,
        literals: *mut i16,
        literal_count: usize,
        work: *mut u64,
        out: *mut u8,
        room: usize,
    ) -> Written;
    fn bullacetop_book_line(
        cells: *mut u16,
        cell_count: usize,
        literals: *mut i16,
        literal_count: usize,
        work: *mut u64,
        line: *const u8,
        count: usize,
        number: u64,
        shown: Shown,
        cards: *mut u8,
        out: *mut u8,
        room: usize,
    ) -> Spoken;
    fn bullacetop_page(
        table: *const u8,
        count: usize,
        lines: usize,
        flags: usize,
        number: usize,
        out: *mut u8,
        room: usize,
    ) -> u16;
}

/// "A table too short is 31."
const TOO_SHORT: u16 = 31;

const GUARD: u8 = 0x5C;

/// The two tables of a state, between guards.
struct Tables {
    cells: Guarded<u16>,
    literals: Guarded<i16>,
}

impl Tables {
    fn new(slices: &Slices) -> Tables {
        Tables {
            cells: Guarded::new(&slices.cells, 0x5C5C),
            literals: Guarded::new(&slices.literals, 0x5C5C),
        }
    }

    /// As a call left them.
    fn slices(&self) -> Result<Slices, String> {
        self.cells.kept()?;
        self.literals.kept()?;
        let (cells, literals) = (self.cells.inner().to_vec(), self.literals.inner().to_vec());
        Ok(Slices { cells, literals, slip: None })
    }
}

/// Bytes of their own length that are only read. Where there is none there is no address.
struct Lent(Box<[u8]>);

impl Lent {
    fn new(bytes: &[u8]) -> Lent {
        Lent(bytes.into())
    }

    fn address(&self) -> *const u8 {
        match self.0.is_empty() {
            true => ptr::null(),
            false => self.0.as_ptr(),
        }
    }

    fn kept(&self, bytes: &[u8]) -> Result<(), String> {
        (*self.0 == *bytes).then_some(()).ok_or("a lent text is written".into())
    }
}

/// A text's limits, which are lowered to the highest, and the lengths of the two tables.
#[derive(Clone, Copy, Debug)]
pub struct Room {
    pub limits: (usize, usize),
    pub lengths: (usize, usize),
}

impl Room {
    /// Tables just as long as the limits ask.
    pub fn of(limits: &Limits) -> Room {
        Room::under((limits.numbers as usize, limits.clauses))
    }

    pub fn under(limits: (usize, usize)) -> Room {
        let own = Limits::own(limits.0, limits.1);
        Room { limits, lengths: (Cells::of(&own).count, Rows::of(&own, None).count) }
    }

    /// What stands there before means nothing.
    fn tables(&self) -> Tables {
        let (cells, literals) = (vec![0x3B3B; self.lengths.0], vec![0x3B3B; self.lengths.1]);
        Tables::new(&Slices { cells, literals, slip: None })
    }
}

/// What a text opens: where the refusal is 0 its state, else a malformed one.
pub struct Opened {
    pub refusal: u16,
    pub line: usize,
    pub slices: Slices,
}

pub fn open(text: &[u8], room: &Room) -> Result<Opened, String> {
    open_by(bullacetop_book_open, text, room)
}

pub fn open_qdimacs(text: &[u8], room: &Room) -> Result<Opened, String> {
    open_by(bullacetop_book_open_qdimacs, text, room)
}

fn open_by(call: OpenCall, text: &[u8], room: &Room) -> Result<Opened, String> {
    let (lent, mut tables) = (Lent::new(text), room.tables());
    let ((numbers, rules), (m, n)) = (room.limits, room.lengths);
    let (cells, literals) = (tables.cells.at(), tables.literals.at());
    let Told { refusal, line } =
        unsafe { call(lent.address(), text.len(), numbers, rules, cells, m, literals, n) };
    lent.kept(text)?;
    Ok(Opened { refusal, line, slices: tables.slices()? })
}

pub fn tag(text: &[u8], room: &Room, size: usize) -> Result<(Converted, Vec<u8>), String> {
    convert_by(bullacetop_book_tag, text, room, size)
}

pub fn untag(text: &[u8], room: &Room, size: usize) -> Result<(Converted, Vec<u8>), String> {
    convert_by(bullacetop_book_untag, text, room, size)
}

/// The answer and the whole table; an error where the text or anything outside the tables changed.
fn convert_by(
    call: ConvertCall,
    text: &[u8],
    room: &Room,
    size: usize,
) -> Result<(Converted, Vec<u8>), String> {
    let (lent, mut tables) = (Lent::new(text), room.tables());
    let mut table = Guarded::new(&vec![LENT_BYTE; size], GUARD);
    let ((numbers, rules), (m, n)) = (room.limits, room.lengths);
    let (cells, literals, out) = (tables.cells.at(), tables.literals.at(), table.at());
    let (at, count) = (lent.address(), text.len());
    let told = unsafe { call(at, count, numbers, rules, cells, m, literals, n, out, size) };
    lent.kept(text)?;
    tables.slices()?;
    table.kept()?;
    Ok((told, table.inner().to_vec()))
}

/// The bytes of a session's table of cards.
pub const CARD_TABLE: usize = 65_536;

/// The card answered last and the table of its lines.
#[derive(Clone, Debug, PartialEq, Eq)]
pub struct Cards {
    pub shown: Shown,
    pub table: Vec<u8>,
}

impl Cards {
    /// No card has been answered yet; the table holds bytes that no line has.
    pub fn none() -> Cards {
        Cards { shown: unsafe { bullacetop_no_card() }, table: vec![LENT_BYTE; CARD_TABLE] }
    }
}

/// The bytes that an answer's text may need.
pub fn room() -> usize {
    unsafe { bullacetop_room() }
}

/// The table that answers are written to: what stands behind one means nothing.
pub struct Page(Guarded<u8>);

impl Page {
    /// A table of so many bytes.
    pub fn new(length: usize) -> Page {
        Page(Guarded::new(&vec![GUARD; length], GUARD))
    }

    fn lend(&mut self) -> (*mut u8, usize) {
        let length = self.0.inner().len();
        (self.0.at(), length)
    }

    /// The first bytes of the table, or none where it is too short and all zero; an error where a number or a byte is
    /// none of either.
    fn answer(&self, Written { refusal, length }: Written) -> Result<Option<Vec<u8>>, String> {
        self.0.kept()?;
        workspace_kept()?;
        let page = self.0.inner();
        match (refusal, length) {
            (TOO_SHORT, 0) if page.iter().all(|&byte| byte == 0) => Ok(None),
            (0, _) if length <= page.len() => Ok(Some(page[..length].to_vec())),
            _ => Err(format!("refusal {refusal}, length {length} in a table of {}", page.len())),
        }
    }

    /// What the program `card` prints for a text.
    pub fn print(&mut self, text: &[u8], room: &Room) -> Result<Option<Vec<u8>>, String> {
        let (lent, mut tables) = (Lent::new(text), room.tables());
        let ((numbers, rules), (m, n)) = (room.limits, room.lengths);
        let (cells, literals, work) = (tables.cells.at(), tables.literals.at(), workspace());
        let (at, count) = (lent.address(), text.len());
        let (out, size) = self.lend();
        let told = unsafe {
            bullacetop_book_print(at, count, numbers, rules, cells, m, literals, n, work, out, size)
        };
        lent.kept(text)?;
        tables.slices()?;
        self.answer(told)
    }

    /// One line of a session: its text, none where the table is too short. State and card answered last go on.
    pub fn line(
        &mut self,
        slices: &mut Slices,
        line: &[u8],
        number: u64,
        cards: &mut Cards,
    ) -> Result<Option<Vec<u8>>, String> {
        let (lent, mut tables) = (Lent::new(line), Tables::new(slices));
        let mut table = Guarded::new(&cards.table, GUARD);
        let (m, n, k) = (slices.cells.len(), slices.literals.len(), line.len());
        let (cells, literals) = (tables.cells.at(), tables.literals.at());
        let ((out, size), shown, lines) = (self.lend(), cards.shown, table.at());
        let (at, work) = (lent.address(), workspace());
        let Spoken { refusal, length, shown } = unsafe {
            bullacetop_book_line(
                cells, m, literals, n, work, at, k, number, shown, lines, out, size,
            )
        };
        lent.kept(line)?;
        table.kept()?;
        *cards = Cards { shown, table: table.inner().to_vec() };
        *slices = tables.slices()?;
        self.answer(Written { refusal, length })
    }
}

/// A printed page: the refusal, 0 for none, and every byte of a table of so many.
pub fn page(card: &Card, number: usize, room: usize) -> Result<(u16, Vec<u8>), String> {
    let (lent, mut out) = (Lent::new(card.table), Guarded::new(&vec![GUARD; room], GUARD));
    let (count, lines, flags) = (card.table.len(), card.lines, card.flags);
    let refusal =
        unsafe { bullacetop_page(lent.address(), count, lines, flags, number, out.at(), room) };
    lent.kept(card.table)?;
    out.kept()?;
    Ok((refusal, out.inner().to_vec()))
}
