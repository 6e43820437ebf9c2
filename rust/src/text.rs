//! Texts without a book that stays: the card of a text, and a text in the other edition.

use crate::card::first;
use crate::ffi::{self, with_workspace, Tables, Workspace};
use crate::limits::Limits;
use crate::refusal::Refused;

/// A text that opens, or is converted, has at most so many bytes.
pub const LONGEST_TEXT: usize = 65_536;

/// A table of so many bytes holds every answer's text.
pub fn room() -> usize {
    ffi::room()
}

/// What the program `card` prints for a text under limits, in a lent table of at least [`room`] bytes. The text
/// is opened onto the lent tables of a book. A refused text prints its refusal; the only refusal here is 31,
/// of the table.
pub fn print<'t>(
    text: &[u8],
    limits: Limits,
    tables: Tables,
    work: &mut Workspace,
    table: &'t mut [u8],
) -> Result<&'t [u8], Refused> {
    let told = ffi::print(text, limits.pair(), tables, work, table);
    Refused::unless_none(told.refusal, 0, 0)?;
    Ok(first(table, told.length))
}

/// Converts a text of edition 1 into edition 2, in a lent table: its rules are tagged 1, 2, 3 and so on. It is
/// read under limits, onto the lent tables of a book. Refusals as opening, with 2 for an edition that is not
/// 1; last 31.
pub fn tag<'t>(
    text: &[u8],
    limits: Limits,
    tables: Tables,
    table: &'t mut [u8],
) -> Result<&'t [u8], Refused> {
    converted(ffi::tag(text, limits.pair(), tables, table), table)
}

/// Converts a text of edition 2 into edition 1 likewise, where its tags are 1, 2, 3 and so on. Refusals as
/// opening, with 2 for an edition that is not 2; then 40, last 31.
pub fn untag<'t>(
    text: &[u8],
    limits: Limits,
    tables: Tables,
    table: &'t mut [u8],
) -> Result<&'t [u8], Refused> {
    converted(ffi::untag(text, limits.pair(), tables, table), table)
}

fn converted(told: ffi::Converted, table: &[u8]) -> Result<&[u8], Refused> {
    Refused::unless_none(told.refusal, told.line, 0)?;
    Ok(first(table, told.length))
}

/// Tables on the heap, for one text.
struct Own {
    cells: Vec<u16>,
    literals: Vec<i16>,
}

impl Own {
    fn of(limits: Limits) -> Own {
        Own { cells: vec![0; limits.cells()], literals: vec![0; limits.literals()] }
    }

    fn lend(&mut self) -> Tables<'_> {
        Tables { cells: &mut self.cells, literals: &mut self.literals }
    }
}

/// [`print`](fn@print) with tables of its own, under the usual limits, 40 and 255.
pub fn printed(text: &[u8]) -> Vec<u8> {
    printed_under(Limits::USUAL, text)
}

/// .. under limits of its own.
pub fn printed_under(limits: Limits, text: &[u8]) -> Vec<u8> {
    let mut out = vec![0; room()];
    let mut own = Own::of(limits);
    let told = with_workspace(|work| print(text, limits, own.lend(), work, &mut out));
    // The table has the room that every answer needs, so that none is refused.
    told.unwrap_or_default().to_vec()
}

/// [`tag`] with tables of its own, under the usual limits, 40 and 255.
///
/// ```
/// # fn main() -> Result<(), bullacetop::Refused> {
/// let text = b"(book 1)\n(flags 1)\n(rule 1)\n(end)\n";
/// let tagged = bullacetop::tagged(text)?;
/// assert_eq!(tagged, b"(book 2)\n(flags 1)\n(rule (tag 1) 1)\n(end)\n");
/// assert_eq!(bullacetop::untagged(&tagged)?, text);
/// # Ok(())
/// # }
/// ```
pub fn tagged(text: &[u8]) -> Result<Vec<u8>, Refused> {
    tagged_under(Limits::USUAL, text)
}

/// .. under limits of its own.
pub fn tagged_under(limits: Limits, text: &[u8]) -> Result<Vec<u8>, Refused> {
    Ok(tag(text, limits, Own::of(limits).lend(), &mut vec![0; LONGEST_TEXT])?.to_vec())
}

/// [`untag`] likewise.
pub fn untagged(text: &[u8]) -> Result<Vec<u8>, Refused> {
    untagged_under(Limits::USUAL, text)
}

/// .. under limits of its own.
pub fn untagged_under(limits: Limits, text: &[u8]) -> Result<Vec<u8>, Refused> {
    Ok(untag(text, limits, Own::of(limits).lend(), &mut vec![0; LONGEST_TEXT])?.to_vec())
}
