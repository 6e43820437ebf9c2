//! A state under the limits of 40 and 255 in nine tables, for the calls in Rust: plain arrays of numbers.

use compare::formula::Place;
use compare::{Quantifier, State};

/// A table by place: a count or nothing in cell 0, then one cell for each of 40 places.
pub const BY_PLACE: usize = 41;
pub const CLAUSES: usize = 255;
/// Cells of a clause.
pub const CLAUSE_WIDTH: usize = 16;
/// Entries of each polarity.
pub const ENTRIES: usize = 64;
/// Cells of an entry.
pub const ENTRY_WIDTH: usize = 40;
/// Where the records of learned clauses begin, after their count and their lengths.
pub const RECORDS: usize = ENTRIES + 1;
/// The count, lengths and records of learned clauses.
pub const RECORDED: usize = RECORDS + ENTRIES;

pub const FREE: u16 = 0;
pub const EXISTS: u16 = 1;
pub const FORALL: u16 = 2;

/// It has no padding, so that equal means equal byte for byte.
#[repr(C)]
#[derive(Clone, Copy, Debug, PartialEq, Eq)]
pub struct Raw {
    /// The count of variables, then the number of each place's variable.
    pub numbers: [u16; BY_PLACE],
    /// The level of each place, from cell 1 on.
    pub levels: [u16; BY_PLACE],
    /// The quantifier of each level, from cell 0 on.
    pub kinds: [u16; BY_PLACE],
    pub clauses: [i16; CLAUSES * CLAUSE_WIDTH],
    /// The count of clauses, then the length of each.
    pub clause_sizes: [u16; CLAUSES + 1],
    pub learned_clauses: [i16; ENTRIES * ENTRY_WIDTH],
    /// The count of learned clauses, the length of each, then the record of each: entry i, from 0, has
    /// its record in cell 65 + i.
    pub learned_clause_sizes: [u16; RECORDED],
    pub learned_cubes: [i16; ENTRIES * ENTRY_WIDTH],
    pub learned_cube_sizes: [u16; ENTRIES + 1],
}

impl Raw {
    pub const EMPTY: Raw = Raw {
        numbers: [0; BY_PLACE],
        levels: [0; BY_PLACE],
        kinds: [FREE; BY_PLACE],
        clauses: [0; CLAUSES * CLAUSE_WIDTH],
        clause_sizes: [0; CLAUSES + 1],
        learned_clauses: [0; ENTRIES * ENTRY_WIDTH],
        learned_clause_sizes: [0; RECORDED],
        learned_cubes: [0; ENTRIES * ENTRY_WIDTH],
        learned_cube_sizes: [0; ENTRIES + 1],
    };
}

fn code(quantifier: Quantifier) -> u16 {
    match quantifier {
        Quantifier::Free => FREE,
        Quantifier::Exists => EXISTS,
        Quantifier::Forall => FORALL,
    }
}

/// The tables of a state. The cells outside its counts are zero.
pub fn write(State { formula, store }: &State) -> Box<Raw> {
    let mut raw = Box::new(Raw::EMPTY);
    raw.numbers[0] = formula.prefix.len() as u16;
    for (index, variable) in formula.prefix.iter().enumerate() {
        let level = formula.level(Place(index + 1)).0;
        raw.numbers[index + 1] = variable.number as u16;
        raw.levels[index + 1] = level as u16;
        raw.kinds[level] = code(variable.quantifier);
    }
    write_rows(&formula.clauses, &mut raw.clauses, &mut raw.clause_sizes, CLAUSE_WIDTH);
    let (cells, sizes) = (&mut raw.learned_clauses, &mut raw.learned_clause_sizes);
    write_rows(&store.clauses, cells, sizes, ENTRY_WIDTH);
    for (cell, &record) in sizes[RECORDS..].iter_mut().zip(&store.records) {
        *cell = record as u16;
    }
    let (cells, sizes) = (&mut raw.learned_cubes, &mut raw.learned_cube_sizes);
    write_rows(&store.cubes, cells, sizes, ENTRY_WIDTH);
    raw
}

fn write_rows(rows: &[Vec<i16>], cells: &mut [i16], sizes: &mut [u16], width: usize) {
    sizes[0] = rows.len() as u16;
    for (index, row) in rows.iter().enumerate() {
        sizes[1 + index] = row.len() as u16;
        cells[index * width..][..row.len()].copy_from_slice(row);
    }
}
