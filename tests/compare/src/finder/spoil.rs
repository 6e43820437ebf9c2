//! Faults for calls and states.

use super::case::Case;
use crate::formula::{Formula, Literal, Quantifier, Variable};
use crate::random::Random;
use crate::reading::Reading;
use crate::solver::State;

/// Now and then a call with a fault: another number, a number twice, no number.
pub fn numbers(numbers: &mut Vec<i16>, formula: &Formula, random: &mut Random) {
    let count = formula.prefix.len() as i16;
    let others = [0, 1, 2, count, count + 1, 40, 41, -1, i16::MIN];
    for _ in 0..[0, 0, 0, 0, 0, 1, 2, 3][random.below(8)] {
        match random.below(3) {
            0 => numbers.clear(),
            _ => numbers.insert(random.below(numbers.len() + 1), random.pick(&others)),
        }
    }
}

/// The same in either list of a query, or a number in both.
pub fn reading(reading: &mut Reading, formula: &Formula, random: &mut Random) {
    if random.one_in(8) {
        reading.off.extend(reading.on.first().copied());
    }
    let list = if random.one_in(2) { &mut reading.on } else { &mut reading.off };
    numbers(list, formula, random);
}

/// Puts a fault into the state.
pub fn state(case: &mut Case, random: &mut Random) {
    let State { formula, store } = &mut case.state;
    let any_number = random.pick(&[0, 1, 2, 3, 41, -1]);
    match random.below(9) {
        0 => formula.prefix.push(Variable { number: any_number, quantifier: Quantifier::Exists }),
        1 => formula.prefix.push(Variable { number: 6, quantifier: Quantifier::Free }),
        2 => case.limits.clauses = formula.clauses.len().saturating_sub(1),
        3 => formula.clauses.push(vec![]),
        4 => case.limits.literals = 1,
        5 => case.limits.entries = store.clauses.len().saturating_sub(1),
        6 => spoil_list(&mut formula.clauses, any_number, random),
        7 => {
            let standing = formula.clauses.len();
            store.clauses.push(vec![]);
            store.records.push(standing + random.pick(&[0, 1, 1, 2, 1_000]));
        }
        _ if random.one_in(2) => spoil_list(&mut store.clauses, any_number, random),
        _ => spoil_list(&mut store.cubes, any_number, random),
    }
}

fn spoil_list(lists: &mut [Vec<Literal>], number: i16, random: &mut Random) {
    if lists.is_empty() {
        return;
    }
    let list = random.below(lists.len());
    let list = &mut lists[list];
    match random.below(3) {
        0 => list.push(number),
        1 => list.reverse(),
        _ => list.extend(list.last().copied()),
    }
}
