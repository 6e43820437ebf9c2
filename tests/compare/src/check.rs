//! The state check (refusal 22) over a state of lists.

use crate::constraint::Polarity;
use crate::formula::{Formula, Literal, Quantifier};
use crate::limits::LimitSlip;
use crate::options::{Limits, Options, MOST_FLAGS};
use crate::slip::Slip;
use crate::solver::State;

/// The parts of the check. Each can be left out as a slip.
#[derive(Clone, Copy, Debug, PartialEq, Eq)]
pub enum Check {
    DeclarationRange,
    DeclaredTwice,
    FreeAfterQuantified,
    ClauseCount,
    ClauseEmpty,
    ClauseTooLong,
    ClauseUndeclared,
    ClauseRepeats,
    ClauseOrder,
    EntryCount,
    EntryUndeclared,
    EntryRepeats,
    EntryOrder,
    EntryUnreduced,
    RecordTooHigh,
    /// Only states of own limits have this and the next fault alone.
    LimitsTooHigh,
    TooManyFlags,
}

/// "22 the state is malformed".
pub fn malformed(state: &State, options: &Options) -> bool {
    let faults = [declarations, clauses, entries, records];
    let standing = state.formula.clauses.len();
    if options.slips(Slip::EqualRecordRefused) && state.store.records.contains(&standing) {
        return true;
    }
    let own = match options.of_limits {
        Some(LimitSlip::StateByTheCap) => Limits::HIGHEST,
        _ => options.limits,
    };
    let high = own_limits(state, &options.limits);
    let others = faults.iter().flat_map(|fault| fault(state, &own));
    high.into_iter().chain(others).any(|check| !omitted(check, options))
}

/// Whether a slip leaves a part of the check out.
fn omitted(check: Check, options: &Options) -> bool {
    let of_limits = match check {
        Check::LimitsTooHigh => options.slips_in_limits(LimitSlip::LimitsNotJudged),
        Check::TooManyFlags => options.slips_in_limits(LimitSlip::FlagsNotJudged),
        _ => false,
    };
    of_limits || options.slips(Slip::CheckOmits(check))
}

/// Paper 02, wish 8: limits above the highest, and more than 40 flags.
fn own_limits(state: &State, limits: &Limits) -> Vec<Check> {
    let high = limits.too_high().then_some(Check::LimitsTooHigh);
    let many = (state.formula.free_count() > MOST_FLAGS).then_some(Check::TooManyFlags);
    high.into_iter().chain(many).collect()
}

fn declarations(state: &State, limits: &Limits) -> Vec<Check> {
    let prefix = &state.formula.prefix;
    let mut faults = vec![];
    for (index, variable) in prefix.iter().enumerate() {
        if !(1..=limits.numbers).contains(&variable.number) {
            faults.push(Check::DeclarationRange);
        }
        if prefix[..index].iter().any(|earlier| earlier.number == variable.number) {
            faults.push(Check::DeclaredTwice);
        }
        let after = index > 0 && prefix[index - 1].quantifier != Quantifier::Free;
        if after && variable.quantifier == Quantifier::Free {
            faults.push(Check::FreeAfterQuantified);
        }
    }
    faults
}

fn clauses(state: &State, limits: &Limits) -> Vec<Check> {
    let clauses = &state.formula.clauses;
    let mut faults = vec![];
    if clauses.len() > limits.clauses {
        faults.push(Check::ClauseCount);
    }
    for clause in clauses {
        if clause.is_empty() {
            faults.push(Check::ClauseEmpty);
        }
        if clause.len() > limits.literals {
            faults.push(Check::ClauseTooLong);
        }
        let checks = [Check::ClauseUndeclared, Check::ClauseRepeats, Check::ClauseOrder];
        faults.extend(literals(&state.formula, clause, checks));
    }
    faults
}

/// "a stored entry repeats a variable, is unreduced or out of place order".
fn entries(state: &State, limits: &Limits) -> Vec<Check> {
    let mut faults = vec![];
    for polarity in [Polarity::Clause, Polarity::Cube] {
        let entries = state.store.of(polarity);
        if entries.len() > limits.entries {
            faults.push(Check::EntryCount);
        }
        for entry in entries {
            let checks = [Check::EntryUndeclared, Check::EntryRepeats, Check::EntryOrder];
            faults.extend(literals(&state.formula, entry, checks));
            let last = entry.last().and_then(|&literal| state.formula.place(literal));
            let quantifier = last.map(|place| state.formula.variable(place).quantifier);
            if quantifier == Some(polarity.drops()) {
                faults.push(Check::EntryUnreduced);
            }
        }
    }
    faults
}

/// "The state check refuses a bar whose record exceeds the rules standing."
fn records(state: &State, _limits: &Limits) -> Vec<Check> {
    let standing = state.formula.clauses.len();
    let high = state.store.records.iter().filter(|record| **record > standing);
    high.map(|_| Check::RecordTooHigh).collect()
}

/// Faults of one list of literals; a number out of range is an undeclared one as well.
fn literals(formula: &Formula, list: &[Literal], checks: [Check; 3]) -> Vec<Check> {
    let [undeclared, repeats, order] = checks;
    let places: Vec<_> = list.iter().filter_map(|&literal| formula.place(literal)).collect();
    let mut faults = vec![];
    if places.len() < list.len() {
        faults.push(undeclared);
    }
    if places.windows(2).any(|pair| pair[0] > pair[1]) {
        faults.push(order);
    }
    for (index, literal) in list.iter().enumerate() {
        let same = |earlier: &Literal| earlier.unsigned_abs() == literal.unsigned_abs();
        if list[..index].iter().any(same) {
            faults.push(repeats);
        }
    }
    faults
}
