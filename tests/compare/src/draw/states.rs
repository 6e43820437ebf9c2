//! States in two slices under random limits, well formed or with a fault of those limits.

use super::wide::{Plan, Wide};
use crate::answer::{Call, Subject};
use crate::cases::Program;
use crate::finder::{Shape, Source};
use crate::formula::{Quantifier, Variable};
use crate::options::{Limits, Options, MOST_FLAGS};
use crate::random::Random;
use crate::slices::{Cells, Rows, Slices};
use crate::solver::{Solver, State};

/// A fault that is 22, alone in its state.
#[derive(Clone, Copy, Debug, PartialEq, Eq)]
pub enum Fault {
    NumbersAboveTheCap,
    RulesAboveTheCap,
    /// A count of rules above the own limit.
    MoreRules,
    /// A declared number above the own limit.
    HigherNumber,
    /// A 41st flag.
    MoreFlags,
    CellsShort,
    LiteralsShort,
    /// Any cell, any number: at times no fault.
    AnyCell,
}

pub const FAULTS: [Fault; 8] = [
    Fault::NumbersAboveTheCap,
    Fault::RulesAboveTheCap,
    Fault::MoreRules,
    Fault::HigherNumber,
    Fault::MoreFlags,
    Fault::CellsShort,
    Fault::LiteralsShort,
    Fault::AnyCell,
];

/// A state in slices, and calls on it.
#[derive(Clone, Debug)]
pub struct Drawn {
    pub slices: Slices,
    pub calls: Vec<Call>,
}

/// Limits that hold a state: just what it needs, some more, or the caps.
fn limits(state: &State, random: &mut Random) -> Limits {
    let most = |numbers: Vec<usize>| numbers.into_iter().max().unwrap_or(0);
    let of = state.formula.prefix.iter().map(|variable| variable.number as usize).collect();
    let (numbers, rules) = (most(of), state.formula.clauses.len());
    let more = |least: usize, cap: usize, random: &mut Random| match random.below(6) {
        0 => least,
        1 if random.one_in(10) => cap,
        2 => cap.min(least + random.below(300)),
        _ => cap.min(least + random.below(8)),
    };
    Limits::own(more(numbers, 1_000, random), more(rules, 4_000, random))
}

/// A state that calls reach or need not reach, its store filled by a few searches at times.
fn state(random: &mut Random) -> (State, Vec<Call>) {
    if random.one_in(4) {
        let wide = Wide::draw(Plan::of_attempt(random.below(3), random), random);
        let calls = wide.calls.iter().map(|call| wide.call(call, random)).collect();
        let mut solver = Solver::opened(wide.formula.clone(), wide.options());
        if random.one_in(2) {
            solver.call_within(&Call::Card(1 << 12), 2_000);
        }
        return (solver.state, calls);
    }
    let source = random.pick(&[Source::Opened, Source::GivenStore, Source::GivenStore]);
    let case = Shape::of_attempt(random.below(4)).case(source, random);
    (case.state, case.calls)
}

/// A well-formed state: its slices are just long enough, or longer.
pub fn well_formed(random: &mut Random) -> Drawn {
    let (state, calls) = state(random);
    let limits = limits(&state, random);
    let mut slices = Slices::written(&state, &limits, cells(random));
    if random.one_in(3) {
        let more = random.pick(&[1, 2, 40, 1_000]);
        slices.cells.extend(vec![7; random.below(more + 1)]);
        slices.literals.extend(vec![7; random.below(more + 1)]);
    }
    Drawn { slices, calls }
}

/// What stands in the cells that no count tells.
fn cells(random: &mut Random) -> impl FnMut() -> u16 {
    let seed = random.below(1 << 30) as u64;
    let mut cells = Random::new(seed);
    let zero = random.one_in(3);
    move || if zero { 0 } else { cells.below(1 << 16) as u16 }
}

/// A state with one fault.
pub fn with_fault(fault: Fault, random: &mut Random) -> Drawn {
    let (mut state, calls) = state(random);
    let mut limits = limits(&state, random);
    match fault {
        Fault::NumbersAboveTheCap => {
            let far = random.one_in(20);
            limits.numbers =
                if far { i16::MAX } else { random.pick(&[1_001, 1_001, 1_002, 1_100]) };
        }
        Fault::RulesAboveTheCap => {
            let far = random.one_in(20);
            limits.clauses = if far { 65_535 } else { random.pick(&[4_001, 4_001, 4_002, 5_000]) };
        }
        Fault::MoreFlags => {
            let flags = many_flags(&state, random);
            let quantified = state.formula.free_count();
            state.formula.prefix.splice(0..quantified, flags);
            limits.numbers = Limits::HIGHEST.numbers;
        }
        _ => {}
    }
    let mut slices = Slices::written(&state, &limits, cells(random));
    spoil(&mut slices, &limits, fault, random);
    Drawn { slices, calls }
}

/// From 41 flags on, those of the state first.
fn many_flags(state: &State, random: &mut Random) -> Vec<Variable> {
    let prefix = &state.formula.prefix;
    let mut flags = prefix[..state.formula.free_count()].to_vec();
    let wanted = MOST_FLAGS + 1 + random.pick(&[0, 0, 0, 1, 9]);
    let others =
        (1..=Limits::HIGHEST.numbers).filter(|number| prefix.iter().all(|v| v.number != *number));
    let others = others.map(|number| Variable { number, quantifier: Quantifier::Free });
    flags.extend(others.take(wanted.saturating_sub(flags.len())));
    flags
}

fn spoil(slices: &mut Slices, limits: &Limits, fault: Fault, random: &mut Random) {
    let at = Cells::of(limits);
    let shorter = |length: usize, random: &mut Random| match random.below(3) {
        0 => random.below(length),
        1 => length.saturating_sub(1 + random.below(3)),
        _ => length - 1,
    };
    match fault {
        Fault::MoreRules => {
            let more = random.pick(&[1, 1, 2, 100]);
            slices.cells[at.clause_sizes] = (limits.clauses + more) as u16;
        }
        Fault::HigherNumber => {
            let count = usize::from(slices.cells[at.numbers]);
            let more = random.pick(&[1, 1, 2, 961]);
            match count {
                // Its own limit is as low as can be, and its declaration is the only number.
                0 => slices.cells[at.numbers] = limits.numbers as u16 + 1,
                _ => {
                    let place = random.between(1, count);
                    slices.cells[at.numbers + place] = limits.numbers as u16 + more;
                }
            }
        }
        Fault::CellsShort => slices.cells.truncate(shorter(at.count, random)),
        Fault::LiteralsShort if !slices.literals.is_empty() => {
            let length = shorter(slices.literals.len(), random);
            slices.literals.truncate(length);
        }
        Fault::LiteralsShort => slices.cells.truncate(at.count - 1),
        Fault::AnyCell => {
            let index = random.below(slices.cells.len());
            slices.cells[index] = random.pick(&[0, 1, 2, 40, 41, 64, 65, 1_000, 1_001, u16::MAX]);
        }
        Fault::NumbersAboveTheCap | Fault::RulesAboveTheCap | Fault::MoreFlags => {}
    }
}

/// A text, limits near what its book needs, and the lengths of the slices that it is opened onto, at times too short.
#[derive(Clone, Debug)]
pub struct Opening {
    pub text: Vec<u8>,
    pub limits: (usize, usize),
    pub lengths: (usize, usize),
}

pub fn opening(random: &mut Random) -> Opening {
    let case = super::inputs::draw(Program::Card, random);
    let limits = case.given(None).unwrap_or((40, 255));
    let own = Limits::own(limits.0, limits.1);
    let exact = (Cells::of(&own).count, Rows::of(&own, None).count);
    let near = |exact: usize, random: &mut Random| match random.below(12) {
        0 => exact.saturating_sub(1),
        1 => random.below(exact + 1),
        2 => exact + random.below(50),
        _ => exact,
    };
    let lengths = (near(exact.0, random), near(exact.1, random));
    Opening { text: case.input, limits, lengths }
}

/// The options of a state's own limits.
pub fn options(slices: &Slices) -> Option<Options> {
    slices.limits().map(Options::with)
}
