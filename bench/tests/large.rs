//! The design over any limits against the independent implementation: replies, lines, and every cell of the state.

use bench::large::{card, query, Reply};
use bench::large_books;
use compare::draw::states::{well_formed, with_fault, Drawn, FAULTS};
use compare::draw::wide::{Plan, Wide};
use compare::draw::{ceiling, on_a_large_stack};
use compare::random::Random;
use compare::slices::Slices;
use compare::{Answer, Call, Limits, Reading, Said, State, Store, Subject};

/// A card, or a query of a full reading; none for other calls.
fn answered(slices: &mut Slices, call: &Call, ceiling: u32) -> Option<(Reply, Vec<u8>)> {
    match call {
        Call::Card(length) => {
            let mut table = vec![9; *length];
            let reply = card(slices, &mut table, ceiling);
            Some((reply, table))
        }
        Call::Query(reading) => Some((query(slices, &reading.on, ceiling), vec![])),
        _ => None,
    }
}

fn expected(Answer { said, table, visits }: Answer) -> (Reply, Vec<u8>) {
    let mut reply = Reply { refusal: 0, yes: said == Said::Swap, lines: 0, visits };
    match said {
        Said::Refused(number) => reply.refusal = number.into(),
        Said::Lines(lines) => reply.lines = lines,
        _ => {}
    }
    (reply, table)
}

/// One call on both sides, and the state after it.
fn hold(slices: &mut Slices, call: &Call, ceiling: u32) {
    let mut other = slices.clone();
    let Some(found) = answered(slices, call, ceiling) else {
        slices.call_within(call, ceiling);
        return;
    };
    assert_eq!(found, expected(other.call_within(call, ceiling)), "{call}, ceiling {ceiling}");
    assert!(*slices == other, "{call}: the states differ");
}

#[test]
fn drawn_states() {
    on_a_large_stack(|| {
        let mut random = Random::new(1);
        for attempt in 0..6_000 {
            let Drawn { mut slices, calls } = match attempt % 4 {
                0 => with_fault(FAULTS[attempt / 4 % FAULTS.len()], &mut random),
                _ => well_formed(&mut random),
            };
            let formula = slices.read_well_formed().map(|state| state.formula);
            for call in calls {
                // Readings that are not full, or are refused, are no queries of this design.
                let full = |reading: &Reading| {
                    formula.as_ref().is_some_and(|formula| {
                        let named = reading.numbers().len() == formula.free_count();
                        named && reading.is_full(formula)
                    })
                };
                if !matches!(&call, Call::Query(reading) if !full(reading)) {
                    let needed = slices.clone().call_within(&call, 2_000).visits;
                    let ceiling = ceiling(needed, &mut random).min(2_000);
                    hold(&mut slices, &call, ceiling);
                }
            }
        }
    });
}

#[test]
fn wide_books() {
    on_a_large_stack(|| {
        let mut random = Random::new(2);
        for attempt in 0..60 {
            let plan = Plan::of_attempt(attempt, &mut random);
            let wide = Wide::draw(plan, &mut random);
            let state = State { formula: wide.formula.clone(), store: Store::default() };
            let mut slices = Slices::written(&state, &wide.limits, || 5);
            for _ in 0..3 {
                hold(&mut slices, &Call::Card(1 << 12), 20_000);
                let free = &wide.formula.prefix[..wide.formula.free_count()];
                let on: Vec<i16> =
                    free.iter().map(|v| v.number).filter(|_| random.one_in(2)).collect();
                hold(&mut slices, &Call::Query(Reading::full(&wide.formula, &on)), 20_000);
            }
        }
    });
}

/// The books that are measured fit the highest limits, and both sides agree on the start of their cards.
#[test]
fn measured_books() {
    on_a_large_stack(|| {
        for book in large_books::all() {
            let (variables, rules) = (book.formula.prefix.len(), book.formula.clauses.len());
            println!("{}: {variables} variables, {rules} rules", book.name);
            let state = State { formula: book.formula, store: Store::default() };
            let limits = Limits::own(variables, rules);
            let mut slices = Slices::written(&state, &limits, || 0);
            for ceiling in [1_500, 4_000] {
                hold(&mut slices, &Call::Card(1 << 16), ceiling);
            }
        }
    });
}
