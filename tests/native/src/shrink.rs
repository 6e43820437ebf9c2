//! Making a case smaller while the two sides still disagree on it.

use crate::budget::{self, Walk};
use crate::generate;
use crate::hold::{hold, Asked, Case};
use crate::tally::Tally;
use compare::slices::Slices;
use compare::{Formula, State};

/// Takes the first smaller case that still shows a disagreement, until there is none. A state
/// that cannot be read as lists keeps its tables and loses calls only.
pub fn smallest(mut case: Case) -> Case {
    while let Some(smaller) = smaller(&case).into_iter().find(disagrees) {
        case = smaller;
    }
    case
}

fn disagrees(case: &Case) -> bool {
    affordable(case) && hold(case, &mut Tally::default()).is_err()
}

fn affordable(case: &Case) -> bool {
    let state = case.slices.read_well_formed().zip(case.slices.limits());
    let Some((State { mut formula, .. }, limits)) = state else { return true };
    let walk = if case.opened { Walk::Plain } else { Walk::Whole };
    case.calls.iter().all(|Asked { call, .. }| {
        let within = budget::affords(&formula, call, walk, 50_000);
        generate::follow(&mut formula, &limits, call);
        within
    })
}

fn smaller(case: &Case) -> Vec<Case> {
    let mut found = vec![];
    for index in 0..case.calls.len() {
        let mut other = case.clone();
        other.calls.remove(index);
        found.push(other);
    }
    for (index, Asked { call, ceiling }) in case.calls.iter().enumerate() {
        if *ceiling > 0 && call.searches() {
            for lower in [0, ceiling / 2, ceiling - 1] {
                let mut other = case.clone();
                other.calls[index].ceiling = lower;
                found.push(other);
            }
        }
        let mut lists = call.clone();
        let lengths: Vec<usize> = lists.lists_mut().iter().map(|list| list.len()).collect();
        for (which, length) in lengths.into_iter().enumerate() {
            for at in 0..length {
                let mut other = case.clone();
                other.calls[index].call.lists_mut()[which].remove(at);
                found.push(other);
            }
        }
    }
    let Some((state, limits)) = case.slices.read().zip(case.slices.limits()) else {
        return found;
    };
    let mut with = |state: State| {
        found.push(Case { slices: Slices::written(&state, &limits, || 0), ..case.clone() });
    };
    for which in 0..3 {
        for row in 0..lists(&mut state.clone())[which].len() {
            let mut other = state.clone();
            lists(&mut other)[which].remove(row);
            if which == LEARNED {
                other.store.records.remove(row);
            }
            with(other);
        }
    }
    for which in 0..3 {
        for row in 0..lists(&mut state.clone())[which].len() {
            for at in 0..lists(&mut state.clone())[which][row].len() {
                let mut other = state.clone();
                lists(&mut other)[which][row].remove(at);
                with(other);
            }
        }
    }
    for index in 0..state.formula.prefix.len() {
        if unnamed(&state, &case.calls, index) {
            let mut other = state.clone();
            other.formula.prefix.remove(index);
            with(other);
        }
    }
    found
}

/// Which of the lists holds the learned clauses.
const LEARNED: usize = 1;

fn lists(state: &mut State) -> [&mut Vec<Vec<i16>>; 3] {
    [&mut state.formula.clauses, &mut state.store.clauses, &mut state.store.cubes]
}

fn unnamed(state: &State, calls: &[Asked], index: usize) -> bool {
    let Formula { prefix, clauses } = &state.formula;
    let number = prefix[index].number.unsigned_abs();
    let rows = clauses.iter().chain(&state.store.clauses).chain(&state.store.cubes);
    let called: Vec<Vec<i16>> = calls.iter().map(|asked| asked.call.numbers()).collect();
    !rows.chain(&called).flatten().any(|literal| literal.unsigned_abs() == number)
}
