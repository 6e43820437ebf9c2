//! Paper 02, wish 10: the rules of an exactly-one form, and that the call is as good as they are.

use compare::finder::{Shape, Source};
use compare::one::{count, rules};
use compare::random::Random;
use compare::{Call, Options, Said, Solver, Subject};

/// "the rules so added are all true exactly when one of the literals is true and every other is false".
#[test]
fn true_exactly_when_one_literal_is() {
    for length in 2..=16i16 {
        // Every third literal is off.
        let literals: Vec<i16> = (1..=length).map(|n| if n % 3 == 0 { -n } else { n }).collect();
        let rules = rules(&literals, &Options::paper());
        assert_eq!(rules.len(), count(literals.len()));
        for values in 0..1u32 << length {
            let is_true = |literal: &i16| {
                let on = values >> (literal.unsigned_abs() - 1) & 1 == 1;
                on == (*literal > 0)
            };
            let all = rules.iter().all(|rule| rule.iter().any(is_true));
            let one = literals.iter().filter(|literal| is_true(literal)).count() == 1;
            assert_eq!(all, one, "{literals:?}, values {values:b}");
        }
    }
    assert_eq!([2, 3, 16].map(count), [2, 4, 121]);
}

/// "first with second, first with third and so on": four literals tell the order.
#[test]
fn pairs_as_given() {
    let expected: [&[i16]; 7] =
        [&[1, 2, -3, 4], &[-1, -2], &[-1, 3], &[-1, -4], &[-2, 3], &[-2, -4], &[3, -4]];
    assert_eq!(rules(&[1, 2, -3, 4], &Options::paper()), expected);
}

/// "All of its rules are added, or none": the state is that of the rules called one by one, or the one before.
#[test]
fn as_its_rules_one_by_one() {
    let mut random = Random::new(20_238);
    let mut seen = [0; 2];
    for attempt in 0..20_000 {
        let case = Shape::of_attempt(attempt).case(Source::Opened, &mut random);
        let mut solver = Solver::new(case.state.clone(), Options::with(case.limits));
        for call in &case.calls {
            let Call::One(literals) = call else {
                solver.call(call);
                continue;
            };
            let mut one_by_one = solver.clone();
            let added = solver.call(call).said == Said::Added;
            if added {
                for rule in rules(literals, &Options::paper()) {
                    assert_eq!(one_by_one.call(&Call::Rule(rule)).said, Said::Added, "{case:?}");
                }
            }
            assert_eq!(solver.state, one_by_one.state, "{call}\n{case:?}");
            seen[usize::from(added)] += 1;
        }
    }
    assert!(seen.iter().all(|count| *count > 1_000), "{seen:?}");
}
