//! The watch over lent slices can fail: a cell written outside them, or in a part that the call only reads, is told, and so is
//! one outside the counts that no call writes.

use compare::hold::{hold, lend, InPlace};
use compare::slices::{Cells, Rows, Slices};
use compare::{Call, Formula, Limits, Quantifier, Reading, Said, State, Store, Variable};
use native::exports::Exports;

/// A call that then writes one cell more: of the cells, or of the literals, so far from their beginning.
struct Writing {
    literal: bool,
    at: isize,
}

impl InPlace for Writing {
    fn call(
        &mut self,
        cells: &mut [u16],
        literals: &mut [i16],
        call: &Call,
        ceiling: u32,
        table: &mut [u8],
    ) -> Result<(Said, u64), String> {
        let told = Exports.call(cells, literals, call, ceiling, table);
        // The guards are part of one allocation with what is lent.
        unsafe {
            match self.literal {
                true => *literals.as_mut_ptr().offset(self.at) ^= 1,
                false => *cells.as_mut_ptr().offset(self.at) ^= 1,
            }
        }
        told
    }
}

const LIMITS: Limits = Limits { numbers: 5, clauses: 7, ..Limits::PAPER };

/// One flag and one variable of each quantifier, a rule, and an entry of each kind.
fn slices() -> Slices {
    let quantifiers = [Quantifier::Free, Quantifier::Exists, Quantifier::Forall];
    let variables = (1..).zip(quantifiers);
    let prefix = variables.map(|(number, quantifier)| Variable { number, quantifier }).collect();
    let formula = Formula { prefix, clauses: vec![vec![1, 2], vec![-1, 2, 3]] };
    let store = Store { clauses: vec![vec![1, 2]], records: vec![1], cubes: vec![vec![1]] };
    Slices::written(&State { formula, store }, &LIMITS, || 0)
}

/// Calls, and the parts that each may write: of the cells, then of the literals.
fn calls() -> Vec<(Call, std::ops::Range<usize>, std::ops::Range<usize>)> {
    let (at, rows) = (Cells::of(&LIMITS), Rows::of(&LIMITS, None));
    let of_rules = at.clause_sizes..at.count;
    let entries = (at.learned_clause_sizes..at.count, rows.learned_clauses..rows.count);
    let full = Reading { on: vec![1], off: vec![] };
    let searches =
        [Call::Query(full.clone()), Call::Card(9), Call::KeepCard(9), Call::Closest(full, 9)];
    let bars = (at.clause_sizes..at.learned_cube_sizes, rows.learned_clauses..rows.learned_cubes);
    let mut calls = vec![
        (Call::Rule(vec![1]), of_rules.clone(), 0..rows.learned_clauses),
        (Call::One(vec![1, 2]), of_rules, 0..rows.learned_clauses),
        (Call::Withdraw, bars.0, bars.1),
        (Call::Forget, at.learned_clause_sizes..at.count, 0..0),
        (Call::Query(Reading::default()), 0..0, 0..0),
        (Call::Write(200), 0..0, 0..0),
        (Call::Rule(vec![]), 0..0, 0..0),
    ];
    calls.extend(searches.map(|call| (call, entries.0.clone(), entries.1.clone())));
    calls
}

/// Every cell, and so many guards on either side, written by every call.
#[test]
fn every_cell_is_watched() {
    let given = slices();
    for (call, cells, literals) in calls() {
        for (literal, length, writes) in
            [(false, given.cells.len(), cells), (true, given.literals.len(), literals)]
        {
            for at in -47..length as isize + 47 {
                let told = lend(&mut Writing { literal, at }, &mut given.clone(), &call, 99);
                let may = usize::try_from(at).is_ok_and(|at| writes.contains(&at));
                assert_eq!(told.is_ok(), may, "{call}: {literal} {at} {told:?}");
                // The comparison tells the others, which it has of the independent implementation.
                let held = hold(&mut Writing { literal, at }, &mut given.clone(), &call, 99);
                assert!(held.is_err(), "{call}: {literal} {at}");
            }
        }
        hold(&mut Exports, &mut given.clone(), &call, 99).expect("the same on both sides");
    }
}
