//! Making a case smaller while it still shows what it shows.

use super::case::Case;
use crate::answer::Call;
use crate::formula::{Formula, Literal, Place, Quantifier};
use crate::options::{Limits, Options};
use crate::reading::Reading;
use crate::solver::State;
use crate::write;

/// Takes the first smaller case that still `shows` the difference, until there is none.
pub fn smallest(mut case: Case, shows: impl Fn(&Case) -> bool) -> Case {
    loop {
        let size = case.size();
        let next = candidates(&case).into_iter().find(|c| c.size() < size && shows(c));
        match next {
            Some(smaller) => case = smaller,
            None => return case,
        }
    }
}

fn candidates(case: &Case) -> Vec<Case> {
    let mut found = vec![];
    without_variables(case, &mut found);
    with_fewer_calls(case, &mut found);
    with_shorter_lists(case, &mut found);
    with_lower_records(case, &mut found);
    with_simpler_calls(case, &mut found);
    with_simpler_variables(case, &mut found);
    with_other_limits(case, &mut found);
    found
}

/// Which of the lists holds the learned clauses.
const LEARNED: usize = 1;

/// The three lists of literal lists of a state.
fn lists(state: &mut State) -> [&mut Vec<Vec<Literal>>; 3] {
    [&mut state.formula.clauses, &mut state.store.clauses, &mut state.store.cubes]
}

fn changed(case: &Case, change: impl FnOnce(&mut Case)) -> Case {
    let mut other = case.clone();
    change(&mut other);
    other
}

/// Without one variable: its literals go, and a clause that becomes empty goes too.
fn without_variables(case: &Case, found: &mut Vec<Case>) {
    for (index, variable) in case.state.formula.prefix.iter().enumerate() {
        let number = variable.number.unsigned_abs();
        let keep = |literal: &Literal| literal.unsigned_abs() != number;
        found.push(changed(case, |other| {
            other.state.formula.prefix.remove(index);
            lists(&mut other.state).into_iter().flatten().for_each(|list| list.retain(keep));
            other.state.formula.clauses.retain(|clause| !clause.is_empty());
            for call in &mut other.calls {
                call.lists_mut().into_iter().for_each(|list| list.retain(keep));
            }
        }));
    }
}

fn with_fewer_calls(case: &Case, found: &mut Vec<Case>) {
    for index in 0..case.calls.len() {
        found.push(changed(case, |other| {
            other.calls.remove(index);
        }));
    }
}

/// Without one clause or entry; without one of its literals; with one literal made positive.
fn with_shorter_lists(case: &Case, found: &mut Vec<Case>) {
    let mut state = case.state.clone();
    for (which, list) in lists(&mut state).into_iter().enumerate() {
        for (index, literals) in list.iter().enumerate() {
            found.push(changed(case, |other| {
                lists(&mut other.state)[which].remove(index);
                if which == LEARNED {
                    other.state.store.records.remove(index);
                }
            }));
            for literal in 0..literals.len() {
                found.push(changed(case, |other| {
                    lists(&mut other.state)[which][index].remove(literal);
                }));
                found.push(changed(case, |other| {
                    let literal = &mut lists(&mut other.state)[which][index][literal];
                    *literal = literal.saturating_abs();
                }));
            }
        }
    }
}

fn with_lower_records(case: &Case, found: &mut Vec<Case>) {
    for (index, record) in case.state.store.records.iter().enumerate() {
        for lower in [0, record.saturating_sub(1)] {
            found.push(changed(case, |other| other.state.store.records[index] = lower));
        }
    }
}

fn with_simpler_calls(case: &Case, found: &mut Vec<Case>) {
    for (index, call) in case.calls.iter().enumerate() {
        let mut simpler = vec![];
        match call {
            Call::Card(length) => simpler.extend(lengths(case, *length).map(Call::Card)),
            Call::KeepCard(length) => simpler.extend(lengths(case, *length).map(Call::KeepCard)),
            Call::Closest(reading, length) => {
                let with = |length| Call::Closest(reading.clone(), length);
                simpler.extend(lengths(case, *length).map(with));
                let readings = shorter_readings(reading).into_iter();
                simpler.extend(readings.map(|reading| Call::Closest(reading, *length)));
            }
            Call::Query(reading) => {
                simpler.extend(shorter_readings(reading).into_iter().map(Call::Query))
            }
            Call::Rule(list) => simpler.extend(shorter_lists(list).into_iter().map(Call::Rule)),
            Call::One(list) => simpler.extend(shorter_lists(list).into_iter().map(Call::One)),
            Call::Write(length) => {
                let text = write::text(&case.state.formula, &Options::with(case.limits)).len();
                let lengths = [0, length / 2, length.saturating_sub(1), length + 1, text];
                simpler.extend(lengths.map(Call::Write));
            }
            Call::Withdraw | Call::Forget => {}
        }
        simpler.push(Call::Forget);
        for call in simpler {
            found.push(changed(case, |other| other.calls[index] = call));
        }
    }
}

fn shorter_readings(Reading { on, off }: &Reading) -> Vec<Reading> {
    let with_on = shorter_lists(on).into_iter().map(|on| Reading { on, off: off.clone() });
    let with_off = shorter_lists(off).into_iter().map(|off| Reading { on: on.clone(), off });
    with_on.chain(with_off).collect()
}

/// A longer table too: a card that is not refused shows more.
fn lengths(case: &Case, length: usize) -> [usize; 5] {
    let free = case.state.formula.free_count();
    [0, length / 2, length.saturating_sub(1), length + 1, free << free]
}

/// Without one number; with one number replaced by a smaller one.
fn shorter_lists(list: &[i16]) -> Vec<Vec<i16>> {
    let mut found = vec![];
    for index in 0..list.len() {
        let mut shorter = list.to_vec();
        shorter.remove(index);
        found.push(shorter);
        for number in [0, 1, 2, 3, 4, list[index].saturating_abs()] {
            let mut simpler = list.to_vec();
            simpler[index] = number;
            found.push(simpler);
        }
    }
    found
}

/// Numbers that follow the places; numbers without gaps; one variable less quantified, its
/// entries left as they are.
fn with_simpler_variables(case: &Case, found: &mut Vec<Case>) {
    let count = case.state.formula.prefix.len() as i16;
    let mut by_rank: Vec<i16> = case.state.formula.prefix.iter().map(|v| v.number).collect();
    let sorted = {
        let mut sorted = by_rank.clone();
        sorted.sort();
        sorted
    };
    for number in &mut by_rank {
        *number = 1 + sorted.partition_point(|other| other < number) as i16;
    }
    found.push(renumbered(case, &(1..=count).collect::<Vec<_>>()));
    found.push(renumbered(case, &by_rank));
    for index in 0..case.state.formula.prefix.len() {
        found.push(changed(case, |other| {
            other.state.formula.prefix[index].quantifier = Quantifier::Free;
        }));
    }
}

/// The case with new numbers for the places, everywhere.
fn renumbered(case: &Case, numbers: &[i16]) -> Case {
    let old = &case.state.formula;
    changed(case, |other| {
        for (variable, number) in other.state.formula.prefix.iter_mut().zip(numbers) {
            variable.number = *number;
        }
        let in_state = lists(&mut other.state).into_iter().flatten();
        let in_calls = other.calls.iter_mut().flat_map(Call::lists_mut);
        in_state.chain(in_calls).for_each(|list| renumber(list, old, numbers));
    })
}

fn renumber(list: &mut [Literal], old: &Formula, numbers: &[i16]) {
    for literal in list {
        if let Some(Place(place)) = old.place(*literal) {
            let number = numbers[place - 1];
            *literal = if *literal < 0 { -number } else { number };
        }
    }
}

/// The paper's limits wherever they show the difference too.
fn with_other_limits(case: &Case, found: &mut Vec<Case>) {
    let paper = Limits::PAPER;
    found.push(changed(case, |other| other.limits = paper));
    found.push(changed(case, |other| other.limits.numbers = paper.numbers));
    found.push(changed(case, |other| other.limits.clauses = paper.clauses));
    found.push(changed(case, |other| other.limits.literals = paper.literals));
    found.push(changed(case, |other| other.limits.entries = paper.entries));
}
