//! Paper 02, wish 5: the figures of the team's readings, refusals and ceilings, and the store left as it is.

use compare::finder::{some_reading, Shape, Source};
use compare::random::Random;
use compare::solver::settled;
use compare::text::open;
use compare::truth;
use compare::{
    plain, Answer, Call, Limits, Options, PlainRun, Reading, Said, Solver, Subject, HIGHEST_CEILING,
};

const A: &str = "(book 1)\n(flags 1 2)\n(exists 3)\n(forall 4)\n(rule 3 4 (no 1))\n\
                 (rule (no 3) (no 4) 2)\n(rule 1 2)\n(end)\n";

fn a() -> Solver {
    let options = Options::paper();
    Solver::opened(open(A.as_bytes(), &options).expect("a book"), options)
}

fn query(on: &[i16], off: &[i16]) -> Call {
    Call::Query(Reading::new(on, off))
}

fn answer(said: Said, visits: u64) -> Answer {
    Answer { said, table: vec![], visits }
}

/// Visits are those of both walks where a flag is open.
#[test]
fn figures_of_the_readings() {
    use Said::{Keep, Swap, Unsettled};
    let figures = [
        (query(&[2], &[]), Swap, 7),
        (query(&[], &[2]), Keep, 7),
        (query(&[], &[]), Unsettled, 11),
        (query(&[1], &[]), Unsettled, 8),
        (query(&[], &[1]), Unsettled, 4),
    ];
    let mut one = a();
    let mut plain = PlainRun::new(a().state.formula, Limits::PAPER);
    for (call, said, visits) in figures {
        assert_eq!(a().call(&call), answer(said, visits), "{call}");
        assert_eq!(one.call(&call), answer(said, visits), "{call}");
        assert_eq!(plain.call(&call), answer(said, visits), "{call}");
    }
    let full = query(&[1], &[2]);
    assert_eq!([one.call(&full), one.call(&full)], [answer(Keep, 3), answer(Keep, 1)]);
    assert_eq!(plain.call(&full), answer(Keep, 3));
}

/// "An open query between two full ones must not change the second's visits", nor does the store change an
/// open one's.
#[test]
fn between_full_readings() {
    let (full, open) = (query(&[1], &[2]), query(&[], &[2]));
    let mut one = a();
    let said: Vec<_> = [&full, &open, &full, &open].map(|call| one.call(call)).into();
    assert_eq!(said.iter().map(|answer| answer.visits).collect::<Vec<_>>(), [3, 7, 1, 7]);
    assert!(said.iter().all(|answer| answer.said == Said::Keep));
}

#[test]
fn refusals() {
    let ask = |on: &[i16], off: &[i16]| a().call_within(&query(on, off), 0);
    for (on, off) in
        [(&[1][..], &[1][..]), (&[1, 1], &[]), (&[], &[2, 2]), (&[3], &[]), (&[], &[0])]
    {
        assert_eq!(ask(on, off), answer(Said::Refused(8), 0), "{on:?} {off:?}");
    }
    assert_eq!(ask(&[], &[i16::MIN]), answer(Said::Refused(8), 0));
    assert_eq!(ask(&[1], &[]), answer(Said::Refused(34), 0));
    let one_on = query(&[1], &[]);
    assert_eq!(a().call_within(&one_on, 7), answer(Said::Refused(34), 7));
    assert_eq!(a().call_within(&one_on, 8), answer(Said::Unsettled, 8));
    let mut spoiled = a();
    spoiled.state.store.cubes.push(vec![1, 3]);
    assert_eq!(spoiled.call_within(&query(&[3], &[]), 0), answer(Said::Refused(22), 0));
}

/// With no flag the empty query is a full reading: it learns.
#[test]
fn without_flags() {
    let text = "(book 1)\n(flags)\n(exists 1)\n(rule 1)\n(rule (no 1))\n(end)\n";
    let options = Options::paper();
    let mut solver = Solver::opened(open(text.as_bytes(), &options).expect("a book"), options);
    let visits = [(); 2].map(|_| solver.call(&query(&[], &[])).visits);
    assert_eq!(visits, [3, 1]);
}

#[test]
fn completions_and_the_store() {
    let mut random = Random::new(20_237);
    let mut seen = [0; 3];
    for attempt in 0..30_000 {
        let case = Shape::of_attempt(attempt).case(Source::Opened, &mut random);
        let mut solver = Solver::new(case.state.clone(), Options::with(case.limits));
        solver.run(&case.calls);
        let reading = some_reading(&solver.state.formula, &mut random);
        let before = solver.state.clone();
        let ceiling = random.pick(&[HIGHEST_CEILING, HIGHEST_CEILING, 0, 2, 5, 9]);
        let Answer { said, visits, .. } =
            solver.call_within(&Call::Query(reading.clone()), ceiling);
        let words = format!("{reading:?}\n{case:?}");
        if !reading.is_full(&before.formula) {
            assert_eq!(solver.state, before, "{words}");
            let whole = plain::search(&before.formula, &[]).visits;
            let empty = reading.numbers().is_empty() && said != Said::Refused(34);
            assert!(visits <= whole && (!empty || visits == whole), "{words}");
        }
        if said == Said::Refused(34) {
            assert_eq!(visits, u64::from(ceiling), "{words}");
            continue;
        }
        assert_eq!(said, settled(truth::of_reading(&before.formula, &reading)), "{words}");
        let kinds = [Said::Swap, Said::Keep, Said::Unsettled];
        seen[kinds.iter().position(|kind| *kind == said).expect("no refusal")] += 1;
    }
    assert!(seen.iter().all(|count| *count > 500), "{seen:?}");
}
