//! "The card on a printed page": paper 02, wish 11, written from the paper alone.

use crate::answer::Said;
use crate::options::Options;
use crate::solver::Solver;
use crate::text::{self, PROGRAM_TABLE};

/// "a page is 24 rows of 72 bytes, each row's last byte being 10".
pub const ROWS: usize = 24;
pub const COLUMNS: usize = 72;
pub const BYTES: usize = ROWS * COLUMNS;

/// "more than 99,999 lines".
pub const MOST_LINES: usize = 99_999;

/// Mistakes that can be switched in.
#[derive(Clone, Copy, Debug, PartialEq, Eq)]
pub enum PageSlip {
    NumberByPage,
    RowNotEnded,
    RowTooMany,
    BytesAfterJudged,
    OtherPagesNotJudged,
    EmptyPageAtEnd,
    NoPageWithoutLines,
    PagesFromZero,
    LastPageRefused,
    OneBlank,
    SignsExchanged,
    OpenIsBlank,
    NumberLeftAligned,
    LineMore,
    TableRoundedUp,
    FlaglessLineNeedsByte,
    PageKeptWhenRefused,
}

pub const ALL: &[(PageSlip, &str)] = &[
    (PageSlip::NumberByPage, "lines are counted anew on each page"),
    (PageSlip::RowNotEnded, "a row with a line does not end with byte 10"),
    (PageSlip::RowTooMany, "row 24 has a line too"),
    (PageSlip::BytesAfterJudged, "bytes after the lines are judged"),
    (PageSlip::OtherPagesNotJudged, "only the bytes of the page's own lines are judged"),
    (PageSlip::EmptyPageAtEnd, "a full last page is followed by an empty one"),
    (PageSlip::NoPageWithoutLines, "a card without lines has no page"),
    (PageSlip::PagesFromZero, "the first page is page 0"),
    (PageSlip::LastPageRefused, "the last page is refused"),
    (PageSlip::OneBlank, "one blank between number and flags"),
    (PageSlip::SignsExchanged, "off is 1 and on is 0"),
    (PageSlip::OpenIsBlank, "an open flag is a blank"),
    (PageSlip::NumberLeftAligned, "numbers are left-aligned"),
    (PageSlip::LineMore, "100,000 lines are printed"),
    (PageSlip::TableRoundedUp, "a last line may lack bytes"),
    (PageSlip::FlaglessLineNeedsByte, "with no flag a line needs a byte"),
    (PageSlip::PageKeptWhenRefused, "a refused page is not zeroed"),
];

/// A card's table, its count of lines, and the flags of its book.
#[derive(Clone, Copy, Debug)]
pub struct Card<'a> {
    pub table: &'a [u8],
    pub lines: usize,
    pub flags: usize,
}

impl Card<'_> {
    /// "Rows 2 to 23 hold one line each"; "A card without lines is one page."
    pub fn pages(&self, slip: Option<PageSlip>) -> usize {
        let full = slip == Some(PageSlip::EmptyPageAtEnd) && self.lines > 0;
        let pages = self.lines.div_ceil(lines_a_page(slip));
        let more = usize::from(full && self.lines.is_multiple_of(lines_a_page(slip)));
        pages.max(usize::from(slip != Some(PageSlip::NoPageWithoutLines))) + more
    }

    /// The rows of a page one after another. "A page the card does not have, more than 99,999 lines
    /// or than the table holds, or a byte above 2 in any line is 36, with a page of zero bytes."
    pub fn page(&self, number: usize, slip: Option<PageSlip>) -> Result<Vec<u8>, u8> {
        let first = usize::from(slip != Some(PageSlip::PagesFromZero));
        let last = self.pages(slip) - usize::from(slip == Some(PageSlip::LastPageRefused));
        let most = MOST_LINES + usize::from(slip == Some(PageSlip::LineMore));
        if number < first || number - first + 1 > last || self.lines > most {
            return Err(36);
        }
        if !self.is_held(slip) || self.judged(number, slip).iter().any(|&byte| byte > 2) {
            return Err(36);
        }
        Ok(self.rows(number - first, number, slip).concat().into_bytes())
    }

    /// Whether the table holds the lines.
    fn is_held(&self, slip: Option<PageSlip>) -> bool {
        let bytes = match slip {
            Some(PageSlip::TableRoundedUp) => {
                (self.lines as u128).saturating_sub(1) * self.flags as u128
            }
            Some(PageSlip::FlaglessLineNeedsByte) => self.lines as u128 * self.flags.max(1) as u128,
            _ => self.lines as u128 * self.flags as u128,
        };
        bytes <= self.table.len() as u128
    }

    /// The bytes that may not be above 2.
    fn judged(&self, number: usize, slip: Option<PageSlip>) -> &[u8] {
        let end = (self.lines * self.flags).min(self.table.len());
        match slip {
            Some(PageSlip::BytesAfterJudged) => self.table,
            Some(PageSlip::OtherPagesNotJudged) => {
                let page = 22 * self.flags;
                &self.table[((number - 1) * page).min(end)..(number * page).min(end)]
            }
            _ => &self.table[..end],
        }
    }

    fn rows(&self, before: usize, number: usize, slip: Option<PageSlip>) -> Vec<String> {
        let lines_a_page = lines_a_page(slip);
        let mut rows = vec![row(&format!("CARD{number:>67}"), '\n')];
        for place in 0..lines_a_page {
            let line = before * lines_a_page + place;
            rows.push(if line < self.lines { self.line(line, place, slip) } else { row("", '\n') });
        }
        rows.resize(ROWS, row("", '\n'));
        rows
    }

    /// "its number, counted from 1 through the whole card, right-aligned in columns 1 to 5, two
    /// blanks, then for each flag in place order a dot for open, 0 for off or 1 for on".
    fn line(&self, line: usize, place: usize, slip: Option<PageSlip>) -> String {
        let counted = if slip == Some(PageSlip::NumberByPage) { place } else { line } + 1;
        let number = match slip {
            Some(PageSlip::NumberLeftAligned) => format!("{counted:<5}"),
            _ => format!("{counted:>5}"),
        };
        let blanks = if slip == Some(PageSlip::OneBlank) { " " } else { "  " };
        let bytes = self.table.iter().skip(line * self.flags).take(self.flags);
        let flags: String = bytes.map(|&byte| sign(byte, slip)).collect();
        let end = if slip == Some(PageSlip::RowNotEnded) { ' ' } else { '\n' };
        row(&format!("{number}{blanks}{flags}"), end)
    }
}

fn sign(byte: u8, slip: Option<PageSlip>) -> char {
    match (byte, slip) {
        (0, Some(PageSlip::OpenIsBlank)) => ' ',
        (1, Some(PageSlip::SignsExchanged)) => '1',
        (2, Some(PageSlip::SignsExchanged)) => '0',
        (0, _) => '.',
        (1, _) => '0',
        _ => '1',
    }
}

fn lines_a_page(slip: Option<PageSlip>) -> usize {
    22 + usize::from(slip == Some(PageSlip::RowTooMany))
}

/// "unused columns are blank". No book has so many flags that a row is too long; where a table does,
/// those that have no column are left out.
fn row(text: &str, end: char) -> String {
    let width = COLUMNS - 1;
    format!("{text:<width$.width$}{end}")
}

/// A page in a table of so many bytes: the refusal, 0 for none, and every byte. A table too short is
/// 31, after 36.
pub fn lent(card: &Card, number: usize, room: usize, slip: Option<PageSlip>) -> (u16, Vec<u8>) {
    let zeroed = match slip {
        Some(PageSlip::PageKeptWhenRefused) => vec![b' '; room],
        _ => vec![0; room],
    };
    match card.page(number, slip) {
        Err(refusal) => (refusal.into(), zeroed),
        Ok(_) if room < BYTES => (31, zeroed),
        Ok(mut bytes) => {
            bytes.resize(room, 0);
            (0, bytes)
        }
    }
}

/// What the program `pages` prints for a text: all pages of its card; refused, what `card` prints.
pub fn pages_program(text: &[u8], options: &Options, slip: Option<PageSlip>) -> Vec<u8> {
    let refused = |number, line| format!("(refused {number} {line})\n").into_bytes();
    let formula = match text::open(text, options) {
        Ok(formula) => formula,
        Err(fault) => return refused(fault.number, fault.line),
    };
    let mut table = vec![0; PROGRAM_TABLE];
    let answer = Solver::opened(formula.clone(), *options).card(&mut table);
    let lines = match answer.said {
        Said::Lines(lines) => lines,
        Said::Refused(number) => return refused(number, 0),
        _ => unreachable!("a card returns lines or a refusal"),
    };
    let card = Card { table: &table, lines, flags: formula.free_count() };
    let numbers = 1..=card.pages(slip);
    numbers.flat_map(|number| card.page(number, slip).unwrap_or(vec![0; BYTES])).collect()
}
