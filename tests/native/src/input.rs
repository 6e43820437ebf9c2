//! Inputs from a seed: each has a source and an index, and can be drawn again by itself.

use crate::budget::{self, Walk};
use crate::generate::{self, Book, Shape, SHAPES};
use crate::hold::{Asked, Case};
use crate::spoil::{self, Fault, FAULTS};
use compare::random::Random;
use compare::slices::Slices;
use compare::{
    plain, Call, Formula, Limits, Options, Said, Solver, State, Store, Subject, HIGHEST_CEILING,
};

#[derive(Clone, Copy, Debug, PartialEq, Eq)]
pub enum Source {
    /// A freshly opened formula and a list of calls.
    Opened,
    /// A list of searches that fills the store and goes on.
    Filling,
    /// A card for every length of its table.
    Lengths,
    /// A well-formed state that calls need not reach.
    GivenStore,
    /// A state with a fault.
    Malformed,
    /// Any of these, each call under a ceiling near what it needs.
    Ceilings,
    /// A freshly opened small formula and a list of some hundred calls, at times under ceilings.
    Long,
}

pub const SOURCES: [Source; 7] = [
    Source::Opened,
    Source::Filling,
    Source::Lengths,
    Source::GivenStore,
    Source::Malformed,
    Source::Ceilings,
    Source::Long,
];

pub struct Input {
    pub case: Case,
    pub fault: Option<Fault>,
}

/// The input of a source at an index.
pub fn draw(source: Source, seed: u64, index: u64) -> Input {
    let place = SOURCES.iter().position(|other| *other == source).unwrap_or(0) as u64;
    let mixed = seed.wrapping_mul(0x5851_F42D_4C95_7F2D) ^ (index * 8 + place);
    let random = &mut Random::new(mixed);
    let index = index as usize;
    let shape = SHAPES[index % SHAPES.len()];
    let (case, fault) = match source {
        Source::Opened => (opened(shape, random), None),
        Source::Filling => (filling(random), None),
        Source::Lengths => (lengths(SHAPES[index % 4], random), None),
        Source::GivenStore => (given(shape, random), None),
        Source::Malformed => {
            let fault = FAULTS[index % FAULTS.len()];
            let shape = SHAPES[random.below(SHAPES.len())];
            (malformed(shape, fault, random), Some(fault))
        }
        Source::Ceilings => {
            let of = OF_CEILINGS[index % OF_CEILINGS.len()];
            // Another seed, so that the lists are not those of the other source.
            let Input { case, fault } = draw(of, !seed, index as u64 / OF_CEILINGS.len() as u64);
            (under_ceilings(case, random), fault)
        }
        Source::Long => (long(SHAPES[index % 3], random), None),
    };
    Input { case, fault }
}

/// What lists under ceilings are made of, by turns.
const OF_CEILINGS: [Source; 8] = [
    Source::Opened,
    Source::GivenStore,
    Source::Opened,
    Source::Lengths,
    Source::Opened,
    Source::GivenStore,
    Source::Filling,
    Source::Malformed,
];

/// The same calls, each under a ceiling near what it needs then; a stopped one at times again.
fn under_ceilings(case: Case, random: &mut Random) -> Case {
    let state = case.slices.read().zip(case.slices.limits());
    let mut solver = state.map(|(state, limits)| Solver::new(state, Options::with(limits)));
    let mut calls = vec![];
    for Asked { call, .. } in case.calls {
        loop {
            let ceiling = ceiling(&call, solver.as_ref(), random);
            calls.push(Asked { call: call.clone(), ceiling });
            let answer = solver.as_mut().map(|solver| solver.call_within(&call, ceiling));
            let stopped = answer.is_some_and(|answer| answer.said == Said::Refused(34));
            if !stopped || random.one_in(2) {
                break;
            }
        }
    }
    Case { calls, ..case }
}

/// Near what a call needs on a state, or near an end.
pub fn ceiling(call: &Call, solver: Option<&Solver>, random: &mut Random) -> u32 {
    let needed = solver.map_or(0, |solver| solver.clone().call(call).visits) as u32;
    match random.below(9) {
        0 => 0,
        1 => HIGHEST_CEILING,
        2 => random.pick(&[1, 2, 3, 1 << 16, 1 << 31, HIGHEST_CEILING - 1]),
        3 | 4 => needed,
        5 => needed + 1,
        6 => random.below(needed as usize + 1) as u32,
        _ => needed.saturating_sub(1),
    }
}

fn opened(shape: Shape, random: &mut Random) -> Case {
    let mut book = Book::draw(shape, Walk::Plain, random);
    let mut calls = shape.calls(&book, Walk::Plain, random);
    if random.one_in(6) {
        // The same formula, clause by clause.
        let mut clauses = std::mem::take(&mut book.formula.clauses);
        clauses.iter_mut().for_each(|clause| random.shuffle(clause));
        calls.splice(0..0, clauses.into_iter().map(Call::Rule));
    }
    Case::opened(book.formula, &book.limits, any_cell(random), calls)
}

fn long(shape: Shape, random: &mut Random) -> Case {
    let shape = Shape { calls: 400, ..shape };
    let book = Book::draw(shape, Walk::Plain, random);
    let calls = shape.long(&book, random);
    let case = Case::opened(book.formula, &book.limits, any_cell(random), calls);
    match random.one_in(3) {
        true => under_ceilings(case, random),
        false => case,
    }
}

/// What stands in the cells that no count tells: numbers that lie near a limit, and others; or zero.
fn any_cell(random: &mut Random) -> impl FnMut() -> u16 {
    let zero = random.one_in(4);
    let mut cells = Random::new(random.below(1 << 40) as u64);
    move || if zero { 0 } else { spoil::any_number(&mut cells) as u16 }
}

/// Formulas of which a card learns many clauses and cubes, and searches after it.
fn filling(random: &mut Random) -> Case {
    let (least, visits) = random.pick(&[(1_000, 6_000), (5_000, 16_000), (10_000, 30_000)]);
    let shape = Shape { visits, calls: random.between(2, 10), ..SHAPES[5] };
    let drawn = random.pick(&[Limits::PAPER, Limits::PAPER, Limits::own(100, 260)]);
    let formula = loop {
        let formula = match random.below(8) {
            0 => shape.formula(&drawn, Walk::Plain, random),
            _ => generate::covering(&drawn, random),
        };
        let within = |limit| budget::within(&formula, &[], Walk::Plain, limit);
        if within(visits) && !within(least) {
            break formula;
        }
    };
    let limits = match drawn == Limits::PAPER {
        true => drawn,
        false => Book::limits(&formula, &drawn, random),
    };
    let book = Book { formula, limits };
    let mut calls = vec![Call::Card(1 << 16)];
    calls.extend(shape.calls(&book, Walk::Plain, random));
    // A rule takes the cubes away, a withdrawal learned clauses, and forget all.
    let empties =
        |call: &Call| matches!(call, Call::Rule(_) | Call::One(_) | Call::Withdraw | Call::Forget);
    calls.retain(|call| !empties(call) || random.one_in(6));
    if random.one_in(3) {
        // A rule stands while the store fills on; then it goes, and with it what was learned meanwhile.
        let rule = generate::again(&book.formula, random);
        calls.splice(1..1, [Call::Rule(rule), Call::Card(1 << 16), Call::Withdraw]);
    }
    let calls = affordable(&book, calls, Walk::Plain, 2 * visits);
    Case::opened(book.formula, &book.limits, || 0, calls)
}

/// From no byte to more than all lines need, the store kept or emptied on the way.
fn lengths(shape: Shape, random: &mut Random) -> Case {
    let Book { formula, limits } = Book::draw(shape, Walk::Plain, random);
    let free = formula.free_count();
    let lines = plain::search(&formula, &[]).lines.len();
    let longest = (lines + 1) * free + 2;
    let step = longest.div_ceil(120);
    let mut calls = vec![];
    for length in (random.below(step)..=longest).step_by(step) {
        if random.one_in(5) {
            calls.push(Call::Forget);
        }
        calls.push(Call::Card(length));
        if random.one_in(4) {
            calls.push(Call::KeepCard(length));
        }
    }
    Case::opened(formula, &limits, || 0, calls)
}

fn given(shape: Shape, random: &mut Random) -> Case {
    let shape = Shape { visits: random.pick(&[shape.visits, 8_000]), ..shape };
    let mut book = Book::draw(shape, Walk::Whole, random);
    if random.one_in(3) {
        let other = generate::covering(&Limits::PAPER, random);
        if budget::within(&other, &[], Walk::Whole, shape.visits) {
            let limits = Book::limits(&other, &Limits::PAPER, random);
            book = Book { formula: other, limits };
        }
    }
    let store = match random.below(3) {
        0 => generate::store(&book.formula, random),
        _ => learned(&book, shape, random),
    };
    let calls = shape.calls(&book, Walk::Whole, random);
    let state = State { formula: book.formula, store };
    Case::new(Slices::written(&state, &book.limits, any_cell(random)), calls, false)
}

/// What a card stores on a formula of the same prefix but other clauses, among random entries.
fn learned(Book { formula, limits }: &Book, shape: Shape, random: &mut Random) -> Store {
    let mut other = formula.clone();
    for clause in &mut other.clauses {
        if random.one_in(6) {
            let index = random.below(clause.len());
            clause[index] = -clause[index];
        }
    }
    if random.one_in(3) {
        other.clauses.truncate(random.below(other.clauses.len() + 1));
    }
    let mut solver = Solver::opened(other, Options::with(*limits));
    if budget::within(&solver.state.formula, &[], Walk::Plain, shape.visits) {
        solver.card(&mut []);
    }
    let mut store = solver.state.store;
    let random_store = generate::store(formula, random);
    let lists =
        [(&mut store.clauses, random_store.clauses), (&mut store.cubes, random_store.cubes)];
    for (list, entries) in lists {
        for entry in entries {
            // Before, among or after what was learned.
            let index = random.below(list.len() + 1);
            if list.len() < 64 && (random.one_in(3) || list.is_empty()) {
                list.insert(index, entry);
            } else if random.one_in(8) {
                let last = list.len() - 1;
                list[index.min(last)] = entry;
            }
        }
    }
    // As the search left them, or in any order.
    let standing = formula.clauses.len();
    store.records.iter_mut().for_each(|record| *record = standing.min(*record));
    let any = random.one_in(2);
    store.records = (0..store.clauses.len())
        .map(|index| match store.records.get(index) {
            Some(record) if !any => *record,
            _ => generate::record(formula, random),
        })
        .collect();
    store
}

fn malformed(shape: Shape, fault: Fault, random: &mut Random) -> Case {
    let book = Book::draw(shape, Walk::Whole, random);
    let store = generate::store(&book.formula, random);
    let mut calls = shape.calls(&book, Walk::Whole, random);
    calls.truncate(4);
    calls.extend([Call::Forget, Call::Withdraw]);
    calls.extend([Call::Card(random.below(200)), Call::Query(Default::default())]);
    calls.push(Call::Rule(some_literal(&book.formula)));
    calls.push(Call::One(some_literal(&book.formula)));
    calls.push(Call::Closest(Default::default(), random.below(200)));
    random.shuffle(&mut calls);
    let state = State { formula: book.formula, store };
    let mut slices = Slices::written(&state, &book.limits, any_cell(random));
    spoil::spoil(&mut slices, fault, random);
    if let Some((state, limits)) = slices.read_well_formed().zip(slices.limits()) {
        // Not malformed after all: a state that no calls reach, and perhaps a long search.
        let book = Book { formula: state.formula, limits };
        calls = affordable(&book, calls, Walk::Whole, shape.visits);
    }
    Case::new(slices, calls, false)
}

fn some_literal(formula: &Formula) -> Vec<i16> {
    formula.prefix.first().map(|variable| variable.number).into_iter().collect()
}

fn affordable(book: &Book, calls: Vec<Call>, walk: Walk, visits: u64) -> Vec<Call> {
    let Book { mut formula, limits } = book.clone();
    let mut kept = vec![];
    for call in calls {
        if !budget::affords(&formula, &call, walk, visits) {
            continue;
        }
        generate::follow(&mut formula, &limits, &call);
        kept.push(call);
    }
    kept
}
