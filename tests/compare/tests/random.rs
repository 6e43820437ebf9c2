//! Random lists of calls: the learning run against the plain run and against truth.

use compare::finder::{Case, Shape, Source};
use compare::random::Random;
use compare::solver::settled;
use compare::truth::{self, Verdict};
use compare::{check, table, Answer, Call, Formula, Options, PlainRun, Said, Solver, Subject};

/// The seed of the environment, or a fixed one; printed so that a failure can be run again.
fn seed() -> u64 {
    let given = std::env::var("COMPARE_SEED").ok().and_then(|seed| seed.parse().ok());
    let seed = given.unwrap_or(20_231);
    println!("COMPARE_SEED={seed}");
    seed
}

#[test]
fn learning_run_is_plain_run_and_truth() {
    let mut random = Random::new(seed());
    for attempt in 0..60_000 {
        let case = Shape::of_attempt(attempt).case(Source::Opened, &mut random);
        check_case(&case);
    }
}

#[test]
fn larger_formulas() {
    let mut random = Random::new(seed() + 1);
    let shape = Shape { variables: 9, clauses: 14, literals: 3, calls: 8 };
    for _ in 0..4_000 {
        check_case(&shape.case(Source::Opened, &mut random));
    }
}

fn check_case(case: &Case) {
    let options = Options::with(case.limits);
    let mut learning = Solver::new(case.state.clone(), options);
    let mut plain = PlainRun::new(case.state.formula.clone(), case.limits);
    for call in &case.calls {
        let (answer, plain_answer) = (learning.call(call), plain.call(call));
        assert!(answer.same_reply(&plain_answer), "{call}: {answer}, {plain_answer}\n{case:?}");
        assert!(answer.visits <= plain_answer.visits, "{call}: visits\n{case:?}");
        assert_eq!(learning.state.formula, plain.formula, "{call}\n{case:?}");
        assert!(!check::malformed(&learning.state, &options), "{call}: state\n{case:?}");
        check_truth(&plain.formula, call, &answer, &options);
    }
}

/// The verdict of a card's lines.
fn verdict_of(call: &Call) -> Verdict {
    if matches!(call, Call::KeepCard(_)) {
        Verdict::No
    } else {
        Verdict::Yes
    }
}

fn check_truth(formula: &Formula, call: &Call, answer: &Answer, options: &Options) {
    match (call, answer.said) {
        (Call::Query(reading), Said::Swap | Said::Keep | Said::Unsettled) => {
            let verdict = truth::of_reading(formula, reading);
            assert_eq!(answer.said, settled(verdict), "{call}\n{formula:?}");
        }
        (Call::Closest(reading, length), Said::Closest(found)) => {
            let values = reading.values(formula).into_iter().map(|value| value == Some(true));
            let expected = truth::closest(formula, &values.collect::<Vec<_>>());
            let (expected, differs) = expected.expect("a true reading");
            let bytes: Vec<u8> = expected.iter().map(|on| 1 + u8::from(*on)).collect();
            assert_eq!((&found.reading[..bytes.len()], found.differs), (&bytes[..], differs));
            let lines = truth::lines(formula, &mut vec![], Verdict::Yes);
            let mut table = vec![0; *length];
            table::write(&lines, formula.free_count(), &mut table, options);
            assert_eq!((found.lines, &answer.table), (lines.len(), &table), "{call}\n{formula:?}");
        }
        (Call::Closest(..), Said::Refused(35)) => {
            assert_eq!(truth::verdict(formula, &[]), Verdict::No, "{call}\n{formula:?}");
        }
        (Call::Card(length) | Call::KeepCard(length), Said::Lines(count)) => {
            let lines = truth::lines(formula, &mut vec![], verdict_of(call));
            let mut expected = vec![0; *length];
            table::write(&lines, formula.free_count(), &mut expected, options);
            assert_eq!((count, &answer.table), (lines.len(), &expected), "{call}\n{formula:?}");
        }
        (Call::Card(length) | Call::KeepCard(length), Said::Refused(21)) => {
            let lines = truth::lines(formula, &mut vec![], verdict_of(call)).len();
            assert!(lines * formula.free_count() > *length, "{call}\n{formula:?}");
        }
        _ => {}
    }
}

/// On well-formed states that no calls reach the learning search decides; it must still end, and
/// the state must stay well formed.
#[test]
fn given_states_stay_well_formed() {
    let mut random = Random::new(seed() + 2);
    for attempt in 0..40_000 {
        let case = Shape::of_attempt(attempt).case(Source::GivenStore, &mut random);
        let options = Options::with(case.limits);
        let mut solver = Solver::new(case.state.clone(), options);
        for call in &case.calls {
            solver.call(call);
            assert!(!check::malformed(&solver.state, &options), "{call}\n{case:?}");
        }
    }
}

/// "A refusal returns its number, 0 lines, 0 visits and the state as given".
#[test]
fn malformed_states_are_refused_and_kept() {
    let mut random = Random::new(seed() + 3);
    for attempt in 0..40_000 {
        let case = Shape::of_attempt(attempt).case(Source::Malformed, &mut random);
        if !case.malformed() {
            continue;
        }
        let mut solver = Solver::new(case.state.clone(), Options::with(case.limits));
        for call in &case.calls {
            let answer = solver.call(call);
            assert_eq!((answer.said, answer.visits), (Said::Refused(22), 0), "{call}\n{case:?}");
            assert!(answer.table.iter().all(|byte| *byte == 0));
            assert_eq!(solver.state, case.state);
        }
    }
}
