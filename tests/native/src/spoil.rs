//! Faults of a state, one for each sentence of refusal 22 and each limit of the tables.

use compare::random::Random;
use compare::slices::{self, Cells, Slices};
use compare::Limits;
use std::ops::Range;

#[derive(Clone, Copy, Debug, PartialEq, Eq)]
pub enum Fault {
    VariableCount,
    NumberOutOfRange,
    NumberTwice,
    LevelOutOfRange,
    LevelOfAnother,
    QuantifierCode,
    FreeAfterQuantified,
    FreeLevelQuantified,
    ClauseCount,
    ClauseLength,
    ClauseEmpty,
    Literal(Rows),
    LiteralUndeclared(Rows),
    LiteralTwice(Rows),
    LiteralNegatedToo(Rows),
    PlacesOutOfOrder(Rows),
    EntryCount(Rows),
    EntryLength(Rows),
    EntryUnreduced(Rows),
    RecordTooHigh,
    /// Limits that are not those under which the state was written: other parts, and at times higher ones than may be.
    Limits,
    CellsShort,
    LiteralsShort,
    /// Any cell, any number.
    AnyCell,
    /// Every cell any number.
    AllCells,
}

/// The clauses of the formula, or the entries of one polarity.
#[derive(Clone, Copy, Debug, PartialEq, Eq)]
pub enum Rows {
    Clauses,
    LearnedClauses,
    LearnedCubes,
}

use Rows::{Clauses, LearnedClauses, LearnedCubes};

pub const FAULTS: [Fault; 38] = [
    Fault::VariableCount,
    Fault::NumberOutOfRange,
    Fault::NumberTwice,
    Fault::LevelOutOfRange,
    Fault::LevelOfAnother,
    Fault::QuantifierCode,
    Fault::FreeAfterQuantified,
    Fault::FreeLevelQuantified,
    Fault::ClauseCount,
    Fault::ClauseLength,
    Fault::ClauseEmpty,
    Fault::Literal(Clauses),
    Fault::Literal(LearnedClauses),
    Fault::Literal(LearnedCubes),
    Fault::LiteralUndeclared(Clauses),
    Fault::LiteralUndeclared(LearnedClauses),
    Fault::LiteralUndeclared(LearnedCubes),
    Fault::LiteralTwice(Clauses),
    Fault::LiteralTwice(LearnedClauses),
    Fault::LiteralTwice(LearnedCubes),
    Fault::LiteralNegatedToo(Clauses),
    Fault::LiteralNegatedToo(LearnedClauses),
    Fault::LiteralNegatedToo(LearnedCubes),
    Fault::PlacesOutOfOrder(Clauses),
    Fault::PlacesOutOfOrder(LearnedClauses),
    Fault::PlacesOutOfOrder(LearnedCubes),
    Fault::EntryCount(LearnedClauses),
    Fault::EntryCount(LearnedCubes),
    Fault::EntryLength(LearnedClauses),
    Fault::EntryLength(LearnedCubes),
    Fault::EntryUnreduced(LearnedClauses),
    Fault::EntryUnreduced(LearnedCubes),
    Fault::RecordTooHigh,
    Fault::Limits,
    Fault::CellsShort,
    Fault::LiteralsShort,
    Fault::AnyCell,
    Fault::AllCells,
];

/// Where the parts of a state stand.
struct Parts {
    limits: Limits,
    cells: Cells,
    rows: slices::Rows,
}

impl Parts {
    fn of(slices: &Slices) -> Parts {
        let limits = slices.limits().expect("a state that is spoiled is well formed");
        Parts { cells: Cells::of(&limits), rows: slices::Rows::of(&limits, None), limits }
    }

    /// The literals of rows, and how many cells each row has.
    fn literals(&self, rows: Rows) -> (Range<usize>, usize) {
        let slices::Rows { learned_clauses, learned_cubes, count, entry } = self.rows;
        match rows {
            Clauses => (0..learned_clauses, self.limits.literals),
            LearnedClauses => (learned_clauses..learned_cubes, entry),
            LearnedCubes => (learned_cubes..count, entry),
        }
    }

    /// The count and the lengths of rows.
    fn sizes(&self, rows: Rows) -> Range<usize> {
        let Cells { clause_sizes, learned_clause_sizes, learned_cube_sizes, count, .. } =
            self.cells;
        match rows {
            Clauses => clause_sizes..learned_clause_sizes,
            LearnedClauses => learned_clause_sizes..learned_clause_sizes + 1 + self.limits.entries,
            LearnedCubes => learned_cube_sizes..count,
        }
    }

    /// The record of the first learned clause.
    fn records(&self) -> usize {
        self.cells.learned_clause_sizes + 1 + self.limits.entries
    }
}

struct Table<'a> {
    cells: &'a mut [i16],
    sizes: &'a mut [u16],
    width: usize,
}

fn table(slices: &mut Slices, rows: Rows) -> Table<'_> {
    let parts = Parts::of(slices);
    let (literals, width) = parts.literals(rows);
    Table {
        cells: &mut slices.literals[literals],
        sizes: &mut slices.cells[parts.sizes(rows)],
        width,
    }
}

impl<'a> Table<'a> {
    /// Some row that stands, and its length.
    fn into_row(self, random: &mut Random) -> Option<(&'a mut [i16], &'a mut u16)> {
        let count = usize::from(self.sizes[0]);
        if count == 0 {
            return None;
        }
        let index = random.below(count);
        Some((&mut self.cells[index * self.width..][..self.width], &mut self.sizes[1 + index]))
    }
}

/// A row's length grows by one literal, put where it is told.
fn grow(cells: &mut [i16], size: &mut u16, at: usize, literal: i16) {
    let length = usize::from(*size);
    if length < cells.len() {
        cells.copy_within(at..length, at + 1);
        cells[at] = literal;
        *size += 1;
    } else {
        cells[at.min(length - 1)] = literal;
    }
}

const LARGE: [u16; 4] = [1_000, 32_767, 32_768, 65_535];

/// A number above a limit.
fn above(limit: usize, random: &mut Random) -> u16 {
    match random.below(3) {
        0 => limit as u16 + 1,
        1 => (limit + random.between(1, 60)) as u16,
        _ => random.pick(&LARGE),
    }
}

/// Numbers that lie near a limit, and others.
pub fn any_number(random: &mut Random) -> i16 {
    const NEAR: [i16; 24] = [
        0,
        1,
        2,
        3,
        15,
        16,
        17,
        39,
        40,
        41,
        63,
        64,
        65,
        255,
        256,
        999,
        1_000,
        1_001,
        4_000,
        -1,
        -2,
        -40,
        i16::MAX,
        i16::MIN,
    ];
    match random.below(3) {
        0 => random.pick(&NEAR),
        1 => random.between(0, 80) as i16 - 40,
        _ => random.below(1 << 16) as u16 as i16,
    }
}

/// Mostly one less, or any less.
fn shorter(length: usize, random: &mut Random) -> usize {
    match random.below(3) {
        0 => random.below(length.max(1)),
        1 => random.below(length.clamp(1, 3)),
        _ => length.saturating_sub(1),
    }
}

/// Puts a fault into a well-formed state. Where the state has nothing to spoil it stays as it is.
pub fn spoil(slices: &mut Slices, fault: Fault, random: &mut Random) -> Option<()> {
    let Parts { limits, cells: at, .. } = Parts::of(slices);
    let most = limits.numbers as usize;
    let count = usize::from(slices.cells[at.numbers]);
    let some_place = |random: &mut Random| (count > 0).then(|| random.between(1, count));
    let declared = matches!(fault, Fault::NumberOutOfRange | Fault::NumberTwice);
    if declared && random.one_in(2) {
        // No row, so that none names an undeclared variable: the declaration is the only fault.
        for part in [at.clause_sizes, at.learned_clause_sizes, at.learned_cube_sizes] {
            slices.cells[part] = 0;
        }
    }
    match fault {
        Fault::VariableCount => slices.cells[at.numbers] = above(most, random),
        Fault::NumberOutOfRange => {
            let others = [0, limits.numbers as u16 + 1, limits.numbers as u16 + 2];
            let number = random.pick(&[&others[..], &[32_768, 65_535]].concat());
            slices.cells[at.numbers + some_place(random)?] = number;
        }
        Fault::NumberTwice => {
            slices.cells[at.numbers + some_place(random)?] =
                slices.cells[at.numbers + some_place(random)?];
        }
        Fault::LevelOutOfRange => {
            slices.cells[at.levels + some_place(random)?] = above(most, random);
        }
        Fault::LevelOfAnother => {
            slices.cells[at.levels + some_place(random)?] = random.below(most + 1) as u16;
        }
        Fault::QuantifierCode => {
            let level = slices.cells[at.levels + some_place(random)?];
            slices.cells[at.kinds + usize::from(level)] = above(2, random);
        }
        Fault::FreeAfterQuantified => {
            let place = some_place(random)?;
            let level = random.pick(&[0, usize::from(slices.cells[at.levels + place])]);
            slices.cells[at.levels + place] = level as u16;
            slices.cells[at.kinds + level] = 0;
        }
        Fault::FreeLevelQuantified => slices.cells[at.kinds] = random.pick(&[1, 2]),
        Fault::ClauseCount => slices.cells[at.clause_sizes] = above(limits.clauses, random),
        Fault::RecordTooHigh => {
            let standing = usize::from(slices.cells[at.clause_sizes]);
            let count = usize::from(slices.cells[at.learned_clause_sizes]);
            if count == 0 {
                return None;
            }
            let record = Parts::of(slices).records() + random.below(count);
            slices.cells[record] = above(standing, random);
        }
        Fault::Limits => {
            let which = random.below(2);
            let given = slices.cells[which];
            let others = [given.wrapping_sub(1), given + 1, 0, 40, 255, 1_001, 4_001, 65_535];
            slices.cells[which] = random.pick(&others);
        }
        Fault::CellsShort => {
            slices.cells.truncate(shorter(at.count, random));
        }
        Fault::LiteralsShort => {
            let length = slices.literals.len();
            slices.literals.truncate(shorter(length, random));
        }
        Fault::AnyCell => {
            for _ in 0..random.pick(&[1, 1, 2, 5]) {
                // Its parts are those of the limits that now stand there.
                if slices.read().is_some() {
                    any_cell(slices, random);
                }
            }
        }
        Fault::AllCells => {
            slices.literals.fill_with(|| any_number(random));
            let kept = if random.one_in(2) { at.clause_sizes } else { random.pick(&[0, 2]) };
            slices.cells[kept..].fill_with(|| any_number(random) as u16);
        }
        _ => return spoil_row(slices, fault, random),
    }
    Some(())
}

/// A fault of a row of literals.
fn spoil_row(slices: &mut Slices, fault: Fault, random: &mut Random) -> Option<()> {
    let Parts { limits, cells: at, .. } = Parts::of(slices);
    let count = usize::from(slices.cells[at.numbers]);
    match fault {
        Fault::ClauseLength => {
            let (_, size) = table(slices, Clauses).into_row(random)?;
            *size = above(limits.literals, random);
        }
        Fault::ClauseEmpty => {
            let (_, size) = table(slices, Clauses).into_row(random)?;
            *size = 0;
        }
        Fault::Literal(rows) => {
            let (cells, size) = table(slices, rows).into_row(random)?;
            let length = usize::from(*size);
            if length == 0 {
                return None;
            }
            let above = limits.numbers + 1;
            let others = [0, above, -above, 1_001, i16::MAX, -i16::MAX, i16::MIN];
            cells[random.below(length)] = random.pick(&others);
        }
        Fault::LiteralUndeclared(rows) => {
            let declared = slices.cells[at.numbers + 1..][..count].to_vec();
            let number = (1..=limits.numbers as u16).rfind(|number| !declared.contains(number))?;
            let number = number as i16 * random.pick(&[1, -1]);
            let (cells, size) = table(slices, rows).into_row(random)?;
            let length = usize::from(*size);
            match length > 0 && random.one_in(2) {
                true => cells[random.below(length)] = number,
                false => grow(cells, size, random.below(length + 1), number),
            }
        }
        Fault::LiteralTwice(rows) | Fault::LiteralNegatedToo(rows) => {
            let (cells, size) = table(slices, rows).into_row(random)?;
            let length = usize::from(*size);
            if length == 0 {
                return None;
            }
            let index = random.below(length);
            let sign = if matches!(fault, Fault::LiteralTwice(_)) { 1 } else { -1 };
            // Beside itself, or anywhere.
            let at = if random.one_in(2) { index + 1 } else { random.below(length + 1) };
            let literal = cells[index] * sign;
            grow(cells, size, at, literal);
        }
        Fault::PlacesOutOfOrder(rows) => {
            let (cells, size) = table(slices, rows).into_row(random)?;
            let length = usize::from(*size);
            if length < 2 {
                return None;
            }
            let first = random.below(length - 1);
            cells.swap(first, random.between(first + 1, length - 1));
        }
        Fault::EntryCount(rows) => table(slices, rows).sizes[0] = above(limits.entries, random),
        Fault::EntryLength(rows) => {
            let (_, size) = table(slices, rows).into_row(random)?;
            *size = above(limits.numbers as usize, random);
        }
        Fault::EntryUnreduced(rows) => {
            let drops = if rows == LearnedClauses { 2 } else { 1 };
            let level = |place: usize| usize::from(slices.cells[at.levels + place]);
            let dropped = |place: &usize| slices.cells[at.kinds + level(*place)] == drops;
            let place = (1..=count).rfind(dropped)?;
            let literal = slices.cells[at.numbers + place] as i16 * random.pick(&[1, -1]);
            let (cells, size) = table(slices, rows).into_row(random)?;
            // It stays in place order where the entry has no later literal.
            let keep = random.below(usize::from(*size) + 1);
            *size = keep as u16;
            grow(cells, size, keep, literal);
        }
        _ => unreachable!("{fault:?} is of no row"),
    }
    Some(())
}

/// A cell within the counts or just past them, more often than another.
fn any_cell(slices: &mut Slices, random: &mut Random) {
    let Parts { limits, cells: at, .. } = Parts::of(slices);
    let value = any_number(random);
    let which = random.below(10);
    let by_number = 1 + limits.numbers as usize;
    let mut near = |count: usize, length: usize| {
        let bound = if random.one_in(4) { length } else { (count + 2).min(length) };
        random.below(bound)
    };
    let count = usize::from(slices.cells[at.numbers]);
    match which {
        0 => slices.cells[at.numbers + near(count, by_number)] = value as u16,
        1 => slices.cells[at.levels + near(count, by_number)] = value as u16,
        2 => slices.cells[at.kinds + near(3, by_number)] = value as u16,
        9 => {
            let count = usize::from(slices.cells[at.learned_clause_sizes]);
            let records = Parts::of(slices).records();
            slices.cells[records + near(count, limits.entries)] = value as u16;
        }
        which => {
            let rows = [Clauses, LearnedClauses, LearnedCubes][which % 3];
            let table = table(slices, rows);
            let count = usize::from(table.sizes[0]);
            if which < 6 || table.cells.is_empty() {
                // The count and the lengths.
                let cells = table.sizes.len();
                table.sizes[near(count, cells)] = value as u16;
            } else {
                let row = near(count, table.cells.len() / table.width);
                let size = usize::from(table.sizes[1 + row]);
                table.cells[row * table.width + near(size, table.width)] = value;
            }
        }
    }
}
