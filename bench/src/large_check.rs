//! The check of a state in two slices (refusal 22), and what it holds as codes: twice a literal's place, and one more
//! where it is positive.

use compare::options::MOST_FLAGS;
use compare::slices::{Cells, Rows, Slices};
use compare::{Limits, Quantifier};

#[derive(Clone, Copy)]
pub struct Row {
    pub start: usize,
    pub length: usize,
}

/// Constraints one behind the other.
#[derive(Default)]
pub struct Packed {
    pub codes: Vec<u16>,
    pub rows: Vec<Row>,
}

impl Packed {
    pub fn row(&self, index: usize) -> &[u16] {
        let Row { start, length } = self.rows[index];
        &self.codes[start..][..length]
    }
}

/// A well-formed state.
pub struct Checked {
    pub free_count: usize,
    /// By place, from 1 on.
    pub kinds: Vec<Quantifier>,
    numbers: Vec<i16>,
    /// By number; 0 where it is not declared.
    places: Vec<usize>,
    pub clauses: Packed,
    /// How many codes of each clause universal reduction leaves.
    reduced: Vec<usize>,
    pub learned: Packed,
    pub records: Vec<u16>,
    pub cubes: Packed,
}

impl Checked {
    pub fn place(&self, literal: i16) -> usize {
        self.places.get(usize::from(literal.unsigned_abs())).copied().unwrap_or(0)
    }

    pub fn literal(&self, code: u16) -> i16 {
        let number = self.numbers[code as usize / 2];
        if code % 2 == 1 {
            number
        } else {
            -number
        }
    }

    /// A clause under universal reduction.
    pub fn reduced(&self, index: usize) -> &[u16] {
        &self.clauses.row(index)[..self.reduced[index]]
    }
}

/// None: the state is malformed.
pub fn check(slices: &Slices) -> Option<Checked> {
    let Slices { cells, literals, .. } = slices;
    let limits = slices.limits()?;
    if limits.too_high() || limits.numbers < 0 {
        return None;
    }
    let (at, rows) = (Cells::of(&limits), Rows::of(&limits, None));
    if cells.len() < at.count || literals.len() < rows.count {
        return None;
    }
    let mut book = prefix(cells, &at, &limits)?;
    let clauses = (&cells[at.clause_sizes..], limits.clauses, &literals[..], limits.literals);
    book.clauses = packed(&book, clauses)?;
    for index in 0..book.clauses.rows.len() {
        let row = book.clauses.row(index);
        let forall = |code: &&u16| book.kinds[**code as usize / 2] == Quantifier::Forall;
        let kept = row.len() - row.iter().rev().take_while(forall).count();
        if row.is_empty() {
            return None;
        }
        book.reduced.push(kept);
    }
    let entries = |sizes: usize, first: usize, drops: Quantifier| {
        let table = (&cells[sizes..], limits.entries, &literals[first..], rows.entry);
        let entries = packed(&book, table)?;
        let unreduced = |index: usize| {
            entries.row(index).last().is_some_and(|&code| book.kinds[code as usize / 2] == drops)
        };
        let any = (0..entries.rows.len()).any(unreduced);
        (!any).then_some(entries)
    };
    let learned = entries(at.learned_clause_sizes, rows.learned_clauses, Quantifier::Forall)?;
    let cubes = entries(at.learned_cube_sizes, rows.learned_cubes, Quantifier::Exists)?;
    let records = &cells[at.learned_clause_sizes + 1 + limits.entries..][..learned.rows.len()];
    if records.iter().any(|&record| usize::from(record) > book.clauses.rows.len()) {
        return None;
    }
    let records = records.to_vec();
    Some(Checked { learned, cubes, records, ..book })
}

/// Declarations; each level is that of its place.
fn prefix(cells: &[u16], at: &Cells, limits: &Limits) -> Option<Checked> {
    let numbers = limits.numbers as usize;
    let count = usize::from(cells[at.numbers]);
    if count > numbers {
        return None;
    }
    let mut book = Checked {
        free_count: 0,
        kinds: vec![Quantifier::Free],
        numbers: vec![0],
        places: vec![0; numbers + 1],
        clauses: Packed::default(),
        reduced: vec![],
        learned: Packed::default(),
        records: vec![],
        cubes: Packed::default(),
    };
    let (mut level, mut before) = (0, Quantifier::Free);
    for place in 1..=count {
        let number = usize::from(cells[at.numbers + place]);
        let given = usize::from(cells[at.levels + place]);
        let kind = match (given <= numbers).then(|| cells[at.kinds + given])? {
            0 => Quantifier::Free,
            1 => Quantifier::Exists,
            2 => Quantifier::Forall,
            _ => return None,
        };
        let free = kind == Quantifier::Free;
        level += usize::from(!free && kind != before);
        let out_of_range = number == 0 || number > numbers;
        if out_of_range || book.places[number] != 0 || free && level > 0 || given != level {
            return None;
        }
        before = kind;
        book.free_count += usize::from(free);
        book.kinds.push(kind);
        book.numbers.push(number as i16);
        book.places[number] = place;
    }
    (book.free_count <= MOST_FLAGS).then_some(book)
}

/// Rows of literals in place order: their sizes, how many there may be, their cells, and the width of a row.
fn packed(book: &Checked, table: (&[u16], usize, &[i16], usize)) -> Option<Packed> {
    let (sizes, capacity, cells, width) = table;
    let count = usize::from(sizes[0]);
    if count > capacity {
        return None;
    }
    let mut packed = Packed::default();
    for index in 0..count {
        let (start, length) = (packed.codes.len(), usize::from(sizes[1 + index]));
        if length > width {
            return None;
        }
        let mut last = 0;
        for &literal in &cells[index * width..][..length] {
            let place = book.place(literal);
            if place <= last {
                return None;
            }
            last = place;
            packed.codes.push((2 * place) as u16 + u16::from(literal > 0));
        }
        packed.rows.push(Row { start, length });
    }
    Some(packed)
}
