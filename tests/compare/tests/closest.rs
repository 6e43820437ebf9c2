//! Paper 02, wish 9: the figures of the team's readings, all readings by evaluation, and the store that has no
//! influence.

use compare::closest::Closest;
use compare::finder::{some_reading, Shape, Source};
use compare::random::Random;
use compare::text::open;
use compare::{
    truth, Answer, Call, Formula, Limits, Options, PlainRun, Quantifier, Reading, Said, Solver,
    Store, Subject, Variable,
};

const A: &str =
    "(flags 1 2)\n(exists 3)\n(forall 4)\n(rule 3 4 (no 1))\n(rule (no 3) (no 4) 2)\n(rule 1 2)\n";
const B: &str = "(flags 1)\n(exists 2)\n(rule 2)\n(rule (no 2))\n";

fn formula(body: &str) -> Formula {
    open(format!("(book 1)\n{body}(end)\n").as_bytes(), &Options::paper()).expect("a book")
}

fn solver(body: &str) -> Solver {
    Solver::opened(formula(body), Options::paper())
}

fn closest(on: &[i16], off: &[i16], length: usize) -> Call {
    Call::Closest(Reading::new(on, off), length)
}

fn found(values: &[u8], differs: usize, lines: usize) -> Said {
    let mut reading = [0; 40];
    reading[..values.len()].copy_from_slice(values);
    Said::Closest(Closest { reading, differs, lines })
}

#[test]
fn figures_of_the_readings() {
    let call = closest(&[1], &[2], 5);
    let answer = |visits| Answer { said: found(&[2, 2], 1, 2), table: vec![1, 2, 2, 2, 0], visits };
    let mut one = solver(A);
    assert_eq!([one.call(&call), one.call(&call)], [answer(11), answer(9)]);
    assert_eq!(PlainRun::new(formula(A), Limits::PAPER).call(&call), answer(11));
    let exactly_one = "(flags 1 2)\n(rule 1 2)\n(rule (no 1) (no 2))\n";
    let said = |on: &[i16], off: &[i16]| solver(exactly_one).call(&closest(on, off, 4)).said;
    assert_eq!(said(&[1, 2], &[]), found(&[1, 2], 1, 2));
    assert_eq!(said(&[], &[1, 2]), found(&[1, 2], 1, 2));
    assert_eq!(said(&[1], &[2]), found(&[2, 1], 0, 2));
}

/// 22, 8, then 34, 21 and 35; "35, which leaves what 21 leaves".
#[test]
fn order_of_refusals() {
    let refused = |number, length, visits| Answer {
        said: Said::Refused(number),
        table: vec![0; length],
        visits,
    };
    for (on, off) in [(&[1][..], &[][..]), (&[1, 2], &[2]), (&[1, 2, 3], &[]), (&[1, 1], &[2])] {
        assert_eq!(solver(A).call_within(&closest(on, off, 3), 0), refused(8, 3, 0));
    }
    let mut one = solver(A);
    assert_eq!(one.call_within(&closest(&[1], &[2], 3), 10), refused(34, 3, 10));
    assert_eq!(one.call(&closest(&[1], &[2], 3)), refused(21, 3, 9));
    assert_eq!(solver(A).call(&closest(&[1], &[2], 0)), refused(21, 0, 11));
    let (mut none, mut card) = (solver(B), solver(B));
    assert_eq!(none.call_within(&closest(&[1], &[], 2), 3), refused(34, 2, 3));
    assert_eq!(none.state.store, Store::default());
    assert_eq!(none.call(&closest(&[1], &[], 2)), refused(35, 2, 4));
    card.call(&Call::Card(2));
    assert_eq!(none.state, card.state);
    assert_eq!(none.call(&closest(&[1], &[], 0)), refused(35, 0, 1));
    none.state.store.cubes.push(vec![1, 2]);
    assert_eq!(none.call(&closest(&[2], &[], 2)), refused(22, 2, 0));
}

/// A book of so many flags behind which one load and one fault stand.
fn wide(flags: i16, random: &mut Random) -> Formula {
    let variable = |number| Variable {
        number,
        quantifier: match number - flags {
            ..=0 => Quantifier::Free,
            1 => Quantifier::Forall,
            _ => Quantifier::Exists,
        },
    };
    let prefix = (1..=flags + 2).map(variable).collect();
    let mut formula = Formula { prefix, clauses: vec![] };
    for _ in 0..random.between(4, 14) {
        let mut numbers: Vec<i16> = (1..=flags + 2).collect();
        random.shuffle(&mut numbers);
        numbers.truncate(random.between(2, 4));
        let literals: Vec<i16> = numbers.iter().map(|n| n * random.pick(&[1, -1])).collect();
        formula.add(&literals);
    }
    formula
}

/// "Every other reading on the card differs in at least as many. Among equals, the first by off before on in place
/// order is returned."
#[test]
fn all_readings_by_evaluation() {
    let mut random = Random::new(20_239);
    let (mut seen, mut none) = ([0; 6], 0);
    for attempt in 0..700 {
        let formula = wide([4, 7, 9, 12][attempt % 4], &mut random);
        let mut solver = Solver::opened(formula.clone(), Options::paper());
        let flags: Vec<i16> = (1..=formula.free_count() as i16).collect();
        for _ in 0..2 {
            let on: Vec<i16> = flags.iter().copied().filter(|_| random.one_in(2)).collect();
            let values: Vec<bool> = flags.iter().map(|flag| on.contains(flag)).collect();
            let call = Call::Closest(Reading::full(&formula, &on), 1 << 16);
            match (solver.call(&call).said, truth::closest(&formula, &values)) {
                (Said::Closest(found), Some((reading, differs))) => {
                    let bytes: Vec<u8> = reading.iter().map(|on| 1 + u8::from(*on)).collect();
                    assert_eq!(found.reading[..bytes.len()], bytes, "{on:?}\n{formula:?}");
                    assert!(found.reading[bytes.len()..].iter().all(|byte| *byte == 0));
                    assert_eq!(found.differs, differs, "{on:?}\n{formula:?}");
                    seen[differs.min(5)] += 1;
                }
                (Said::Refused(35), None) => none += 1,
                (said, expected) => panic!("{said:?}, {expected:?}\n{formula:?}"),
            }
        }
    }
    println!("differing flags {seen:?}, no line {none}");
    assert!(seen[..3].iter().all(|count| *count > 20), "{seen:?}, {none}");
}

/// "On a reached state, where that card is finished, the store has no influence on the reading and the number."
#[test]
fn the_store_has_no_influence() {
    let mut random = Random::new(20_240);
    let mut answered = 0;
    for attempt in 0..20_000 {
        let case = Shape::of_attempt(attempt).case(Source::Opened, &mut random);
        let options = Options::with(case.limits);
        let mut solver = Solver::new(case.state.clone(), options);
        solver.run(&case.calls);
        let reading = some_reading(&solver.state.formula, &mut random);
        let call = Call::Closest(reading, 1 << 12);
        let fresh = Solver::opened(solver.state.formula.clone(), options).call(&call);
        let answer = solver.call(&call);
        assert!(answer.same_reply(&fresh) && answer.visits <= fresh.visits, "{call}\n{case:?}");
        answered += usize::from(matches!(answer.said, Said::Closest(_)));
    }
    assert!(answered > 3_000, "{answered}");
}
