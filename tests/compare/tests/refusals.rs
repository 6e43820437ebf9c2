//! Refusals of calls at the paper's limits, and their order.

use compare::{Call, Formula, Options, Quantifier, Reading, Said, Solver, Subject, Variable};

/// Free variables 1 to 20 and the existential 40.
fn solver() -> Solver {
    let free = (1..=20).map(|number| Variable { number, quantifier: Quantifier::Free });
    let last = Variable { number: 40, quantifier: Quantifier::Exists };
    let prefix = free.chain([last]).collect();
    Solver::opened(Formula { prefix, clauses: vec![] }, Options::paper())
}

fn rule(solver: &mut Solver, literals: &[i16]) -> Said {
    solver.call(&Call::Rule(literals.to_vec())).said
}

fn query(on: &[i16], off: &[i16]) -> Said {
    solver().call(&Call::Query(Reading::new(on, off))).said
}

#[test]
fn literals_and_numbers() {
    let rule = |literals: &[i16]| rule(&mut solver(), literals);
    let count = |last: i16| (1..=last).collect::<Vec<i16>>();
    assert_eq!(rule(&count(16)), Said::Added);
    assert_eq!(rule(&count(17)), Said::Refused(7));
    assert_eq!(rule(&[]), Said::Refused(7));
    assert_eq!(rule(&[40]), Said::Added);
    for number in [0, 41, -41, i16::MAX, i16::MIN] {
        assert_eq!(rule(&[number]), Said::Refused(3), "{number}");
    }
    assert_eq!(rule(&[39]), Said::Refused(5));
    assert_eq!(rule(&[1, -1]), Said::Refused(6));
}

#[test]
fn first_fault_decides() {
    let rule = |literals: &[i16]| rule(&mut solver(), literals);
    assert_eq!(rule(&[1, 1, 41]), Said::Refused(6));
    assert_eq!(rule(&[41, 2, 1, 1]), Said::Refused(3));
    assert_eq!(rule(&[39, 1, 1]), Said::Refused(5));
    assert_eq!(rule(&[1; 16]), Said::Refused(6));
    assert_eq!(rule(&[0; 17]), Said::Refused(7));
}

#[test]
fn rule_255_and_256() {
    let mut solver = solver();
    for _ in 0..255 {
        assert_eq!(rule(&mut solver, &[1]), Said::Added);
    }
    for literals in [&[1][..], &[], &[0], &[0; 17]] {
        assert_eq!(rule(&mut solver, literals), Said::Refused(20));
    }
    assert_eq!(solver.state.formula.clauses.len(), 255);
}

/// 7 before 20, and 20 counts the rules of a form together.
#[test]
fn exactly_one_forms() {
    let one =
        |solver: &mut Solver, literals: &[i16]| solver.call(&Call::One(literals.to_vec())).said;
    let mut standing = solver();
    for _ in 0..251 {
        assert_eq!(rule(&mut standing, &[1]), Said::Added);
    }
    let mut more = standing.clone();
    assert_eq!(one(&mut standing, &[1, 2, 3]), Said::Added);
    assert_eq!(standing.state.formula.clauses.len(), 255);
    assert_eq!(rule(&mut more, &[1]), Said::Added);
    for (literals, number) in
        [(&[1, 2, 3][..], 20), (&[0, 0, 0], 20), (&[0, 0], 3), (&[1], 7), (&[0; 17], 7), (&[], 7)]
    {
        let before = more.state.clone();
        assert_eq!(one(&mut more, literals), Said::Refused(number), "{literals:?}");
        assert_eq!(more.state, before);
    }
    assert_eq!(one(&mut more, &[1, 2]), Said::Added);
    let count = |last: i16| (1..=last).collect::<Vec<i16>>();
    assert_eq!(one(&mut solver(), &count(16)), Said::Added);
    assert_eq!(one(&mut solver(), &count(17)), Said::Refused(7));
    assert_eq!(one(&mut solver(), &[1, -1, 41]), Said::Refused(6));
    assert_eq!(one(&mut solver(), &[39, 1, 1]), Said::Refused(5));
    assert_eq!(one(&mut solver(), &[1, i16::MIN]), Said::Refused(3));
}

#[test]
fn queries() {
    assert_eq!(query(&[], &[]), Said::Swap);
    assert_eq!(query(&[2, 1], &[]), Said::Swap);
    assert_eq!(query(&[2, 1], &[4, 3]), Said::Swap);
    for bad in [&[0][..], &[41], &[-1], &[i16::MIN], &[40], &[39], &[1, 1], &[1, 2, 1]] {
        assert_eq!(query(bad, &[]), Said::Refused(8), "{bad:?}");
        assert_eq!(query(&[], bad), Said::Refused(8), "{bad:?}");
        assert_eq!(query(&[3], bad), Said::Refused(8), "{bad:?}");
    }
    assert_eq!(query(&[1, 2], &[3, 2]), Said::Refused(8));
}

#[test]
fn malformed_state_comes_first() {
    let mut solver = solver();
    solver.state.store.cubes.push(vec![1, 40]);
    let calls = [
        Call::Rule(vec![]),
        Call::One(vec![]),
        Call::Closest(Reading::default(), 3),
        Call::Withdraw,
        Call::Query(Reading::new(&[0], &[])),
        Call::Card(3),
        Call::KeepCard(3),
        Call::Forget,
    ];
    for call in calls {
        assert_eq!(solver.call(&call).said, Said::Refused(22), "{call}");
    }
}

/// A level is the index of a maximal run of one quantifier: neighbouring blocks of one kind are
/// one level, and the level of a place is neither the place nor the number.
#[test]
fn levels() {
    use compare::formula::{Level, Place};
    let kinds = [Quantifier::Free, Quantifier::Exists, Quantifier::Exists, Quantifier::Forall];
    let prefix = kinds.iter().zip(1..).map(|(&quantifier, number)| Variable { number, quantifier });
    let formula = Formula { prefix: prefix.collect(), clauses: vec![] };
    let levels: Vec<_> = (1..=4).map(|place| formula.level(Place(place))).collect();
    assert_eq!(levels, [0, 1, 1, 2].map(Level));
}
