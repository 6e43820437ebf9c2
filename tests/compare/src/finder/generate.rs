//! Random cases.

use super::case::Case;
use super::spoil;
use crate::answer::Call;
use crate::constraint::{Constraint, Polarity};
use crate::formula::{Formula, Literal, Quantifier, Variable};
use crate::options::{Limits, Options};
use crate::random::Random;
use crate::reading::Reading;
use crate::solver::State;
use crate::store::Store;
use crate::write;

/// Where a case starts.
#[derive(Clone, Copy, Debug, PartialEq, Eq)]
pub enum Source {
    /// A freshly opened formula: an empty store.
    Opened,
    /// A well-formed state with a few entries in its store.
    GivenStore,
    /// A state with a fault in it.
    Malformed,
}

/// How large a random case may be.
#[derive(Clone, Copy, Debug)]
pub struct Shape {
    pub variables: usize,
    pub clauses: usize,
    pub literals: usize,
    pub calls: usize,
}

impl Shape {
    /// Small and large shapes by turns.
    pub fn of_attempt(attempt: usize) -> Shape {
        let shape =
            |variables, clauses, literals, calls| Shape { variables, clauses, literals, calls };
        [shape(2, 2, 2, 2), shape(3, 4, 3, 3), shape(4, 5, 3, 4), shape(5, 6, 3, 4)][attempt % 4]
    }

    pub fn case(self, source: Source, random: &mut Random) -> Case {
        let formula = self.formula(random);
        let store = match source {
            Source::Opened => Store::default(),
            _ => store(&formula, random),
        };
        let limits = limits(&formula, &store, random);
        let mut case = Case { limits, state: State { formula, store }, calls: vec![] };
        if source == Source::Malformed {
            spoil::state(&mut case, random);
        }
        case.calls = match (source, random.below(2)) {
            (Source::Malformed, 0) => vec![Call::Forget],
            (Source::Opened | Source::GivenStore, 0) => self.plan(&case.state.formula, random),
            _ => (0..random.between(1, self.calls))
                .map(|_| self.any_call(&case.state.formula, random))
                .collect(),
        };
        case
    }

    pub fn formula(self, random: &mut Random) -> Formula {
        let count = random.between(1, self.variables);
        let free = random.below(count + 1);
        let mut numbers: Vec<i16> = (1..=count as i16).collect();
        if random.one_in(4) {
            random.shuffle(&mut numbers);
        }
        let quantifiers = [Quantifier::Exists, Quantifier::Forall];
        let variable = |(index, number): (usize, i16)| {
            let quantifier =
                if index < free { Quantifier::Free } else { random.pick(&quantifiers) };
            Variable { number, quantifier }
        };
        let prefix = numbers.into_iter().enumerate().map(variable).collect();
        let mut formula = Formula { prefix, clauses: vec![] };
        for _ in 0..random.below(self.clauses + 1) {
            let literals = self.literals(&formula, random);
            formula.add(&literals);
        }
        formula
    }

    fn literals(self, formula: &Formula, random: &mut Random) -> Vec<Literal> {
        let longest = self.literals.min(formula.prefix.len());
        let length = random.between(1, longest);
        some_literals(formula, length, random)
    }

    /// One call of any kind, at times with a fault.
    fn any_call(self, formula: &Formula, random: &mut Random) -> Call {
        match random.below(16) {
            0..=2 => any_card(table(formula, random), random),
            13 => {
                let mut reading = any_reading(formula, !random.one_in(6), random);
                spoil::reading(&mut reading, formula, random);
                Call::Closest(reading, table(formula, random))
            }
            14..=15 => {
                let length = random.below(6).min(formula.prefix.len());
                let mut literals = some_literals(formula, length, random);
                spoil::numbers(&mut literals, formula, random);
                Call::One(literals)
            }
            3..=5 => {
                let mut reading = some_reading(formula, random);
                spoil::reading(&mut reading, formula, random);
                Call::Query(reading)
            }
            6..=7 => {
                let mut literals = self.literals(formula, random);
                spoil::numbers(&mut literals, formula, random);
                Call::Rule(literals)
            }
            8 => write(formula, random),
            9..=11 => Call::Withdraw,
            _ => Call::Forget,
        }
    }

    /// A rule, now and then an exactly-one form.
    fn addition(self, formula: &Formula, random: &mut Random) -> Call {
        if formula.prefix.len() > 1 && random.one_in(5) {
            let length = random.between(2, formula.prefix.len());
            return Call::One(some_literals(formula, length, random));
        }
        Call::Rule(self.literals(formula, random))
    }

    /// A list without faults that lets the store fill: searches, perhaps a rule or withdrawals, searches.
    fn plan(self, formula: &Formula, random: &mut Random) -> Vec<Call> {
        let mut calls = vec![];
        for part in 0..random.pick(&[2, 2, 3]) {
            match random.below(4) {
                0 | 1 if part > 0 => calls.push(self.addition(formula, random)),
                2 if part > 0 => calls.extend(vec![Call::Withdraw; random.pick(&[1, 1, 2])]),
                _ => {}
            }
            for _ in 0..random.between(1, self.calls / 2) {
                let query = random.one_in(2);
                let length = formula.free_count() << formula.free_count();
                calls.push(match query {
                    true => Call::Query(some_reading(formula, random)),
                    false if random.one_in(6) => {
                        Call::Closest(any_reading(formula, true, random), length)
                    }
                    false => any_card(length, random),
                });
            }
        }
        calls
    }
}

/// A book written into a table near the length of its text, now and then a short one.
fn write(formula: &Formula, random: &mut Random) -> Call {
    let text = write::text(formula, &Options::paper()).len();
    let lengths = [0, text / 2, text - 1, text, text + 1, text + 9];
    Call::Write(random.pick(&lengths))
}

/// A card of either kind.
fn any_card(length: usize, random: &mut Random) -> Call {
    match random.one_in(3) {
        true => Call::KeepCard(length),
        false => Call::Card(length),
    }
}

/// The bytes of a card table: for all lines that there can be, or for few.
fn table(formula: &Formula, random: &mut Random) -> usize {
    let free = formula.free_count();
    let lengths = [0, free / 2, free, free + 1, 2 * free, 2 * free + 1, 3 * free];
    if random.one_in(2) {
        free << free
    } else {
        random.pick(&lengths)
    }
}

/// Most readings are full; in the others a third of the flags is open.
pub fn some_reading(formula: &Formula, random: &mut Random) -> Reading {
    let full = !random.one_in(3);
    any_reading(formula, full, random)
}

fn any_reading(formula: &Formula, full: bool, random: &mut Random) -> Reading {
    let mut reading = Reading::default();
    for flag in formula.prefix.iter().filter(|v| v.quantifier == Quantifier::Free) {
        match random.below(if full { 2 } else { 3 }) {
            0 => reading.on.push(flag.number),
            1 => reading.off.push(flag.number),
            _ => {}
        }
    }
    reading
}

fn some_literals(formula: &Formula, length: usize, random: &mut Random) -> Vec<Literal> {
    let mut literals: Vec<Literal> = formula.prefix.iter().map(|v| v.number).collect();
    random.shuffle(&mut literals);
    literals.truncate(length);
    literals.iter().map(|&literal| if random.one_in(2) { -literal } else { literal }).collect()
}

fn store(formula: &Formula, random: &mut Random) -> Store {
    let options = Options::paper();
    let mut entries = |polarity| {
        let mut list = vec![];
        for _ in 0..random.below(4) {
            let length = random.below(formula.prefix.len() + 1);
            let mut entry = Constraint::new(polarity, some_literals(formula, length, random));
            entry.order(formula, &options);
            entry.reduce(formula, &options);
            list.push(entry.literals);
        }
        list
    };
    let (clauses, cubes) = (entries(Polarity::Clause), entries(Polarity::Cube));
    let records = clauses.iter().map(|_| random.below(formula.clauses.len() + 1)).collect();
    Store { clauses, records, cubes }
}

/// The paper's limits, or small ones near what the state holds.
fn limits(formula: &Formula, store: &Store, random: &mut Random) -> Limits {
    let mut limits = Limits::PAPER;
    let longest = formula.clauses.iter().map(Vec::len).max().unwrap_or(0);
    if random.one_in(2) {
        limits.entries = (store.clauses.len().max(store.cubes.len()) + random.below(3)).max(1);
    }
    if random.one_in(3) {
        limits.clauses = (formula.clauses.len() + random.below(3)).max(1);
    }
    if random.one_in(3) {
        limits.literals = (longest + random.below(3)).max(1);
    }
    if random.one_in(4) {
        limits.numbers = formula.prefix.len() as i16 + random.below(2) as i16;
    }
    limits
}
