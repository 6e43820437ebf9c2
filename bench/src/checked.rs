//! The check of a state's tables, as every call owes it (refusal 22), in plain Rust: what the tables by
//! number are, whether clauses and entries are declared, in place order and reduced, and whether records
//! are at most the clauses standing.

use crate::raw::{Raw, BY_PLACE, CLAUSES, CLAUSE_WIDTH, ENTRIES, ENTRY_WIDTH, RECORDS};
use crate::raw::{EXISTS, FORALL, FREE};
use compare::Quantifier;

/// A prefix by variable number.
pub struct Prefix {
    pub count: usize,
    pub free_count: usize,
    /// The number of each place's variable, from cell 1 on.
    pub numbers: [usize; BY_PLACE],
    /// 0 where the number is not declared.
    pub places: [usize; BY_PLACE],
    pub quantifiers: [Quantifier; BY_PLACE],
}

/// The prefix of a well-formed state.
pub fn check(raw: &Raw) -> Option<Prefix> {
    let prefix = prefix(raw)?;
    let clauses = rows(&raw.clauses, &raw.clause_sizes, CLAUSE_WIDTH, CLAUSES)?;
    let mut well = clauses.into_iter().all(|clause| !clause.is_empty() && prefix.in_order(clause));
    let (cells, sizes) = (&raw.learned_clauses, &raw.learned_clause_sizes);
    let learned = rows(cells, sizes, ENTRY_WIDTH, ENTRIES)?;
    well &= learned.into_iter().all(|entry| prefix.entry(entry, Quantifier::Forall));
    let standing = raw.clause_sizes[0];
    well &= records(raw).iter().all(|record| *record <= standing);
    let (cells, sizes) = (&raw.learned_cubes, &raw.learned_cube_sizes);
    let cubes = rows(cells, sizes, ENTRY_WIDTH, ENTRIES)?;
    well &= cubes.into_iter().all(|entry| prefix.entry(entry, Quantifier::Exists));
    well.then_some(prefix)
}

/// The records of the learned clauses that a checked count tells.
pub fn records(raw: &Raw) -> &[u16] {
    let count = usize::from(raw.learned_clause_sizes[0]);
    &raw.learned_clause_sizes[RECORDS..][..count]
}

/// The rows of a table, as its counts say.
pub fn rows<'a>(
    cells: &'a [i16],
    sizes: &'a [u16],
    width: usize,
    capacity: usize,
) -> Option<Vec<&'a [i16]>> {
    let count = usize::from(sizes[0]);
    if count > capacity {
        return None;
    }
    let rows = cells.chunks(width).zip(&sizes[1..=count]);
    rows.map(|(row, &size)| row.get(..usize::from(size))).collect()
}

fn prefix(raw: &Raw) -> Option<Prefix> {
    let count = usize::from(raw.numbers[0]);
    let mut prefix = Prefix {
        count,
        free_count: 0,
        numbers: [0; BY_PLACE],
        places: [0; BY_PLACE],
        quantifiers: [Quantifier::Free; BY_PLACE],
    };
    if count >= BY_PLACE {
        return None;
    }
    let (mut level, mut before) = (0, Quantifier::Free);
    for place in 1..=count {
        let number = usize::from(raw.numbers[place]);
        let quantifier = match *raw.kinds.get(usize::from(raw.levels[place]))? {
            FREE => Quantifier::Free,
            EXISTS => Quantifier::Exists,
            FORALL => Quantifier::Forall,
            _ => return None,
        };
        let free = quantifier == Quantifier::Free;
        level += usize::from(!free && quantifier != before);
        let declared = number == 0 || number >= BY_PLACE || prefix.places[number] != 0;
        if declared || free && level > 0 || usize::from(raw.levels[place]) != level {
            return None;
        }
        before = quantifier;
        prefix.free_count += usize::from(free);
        prefix.numbers[place] = number;
        prefix.places[number] = place;
        prefix.quantifiers[number] = quantifier;
    }
    Some(prefix)
}

impl Prefix {
    fn place(&self, literal: i16) -> usize {
        self.places.get(usize::from(literal.unsigned_abs())).copied().unwrap_or(0)
    }

    fn in_order(&self, literals: &[i16]) -> bool {
        let mut last = 0;
        literals.iter().all(|&literal| {
            let above = std::mem::replace(&mut last, self.place(literal));
            above < last
        })
    }

    fn entry(&self, literals: &[i16], drops: Quantifier) -> bool {
        let last = literals.last().map(|literal| usize::from(literal.unsigned_abs()));
        self.in_order(literals) && !last.is_some_and(|number| self.quantifiers[number] == drops)
    }
}
