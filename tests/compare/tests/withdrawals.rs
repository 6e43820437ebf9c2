//! Paper 02, wish 4: the figures of the team's readings, records, and states that no calls reach.
//! Visits as learning/plain.

use compare::text::open;
use compare::{
    Answer, Call, Formula, Limits, Options, PlainRun, Said, Solver, State, Store, Subject,
};

const B: &str = "(flags 1)\n(exists 2)\n(rule 2)\n(rule (no 2))\n";
const D: &str = "(flags)\n(forall 1)\n(exists 2)\n(rule 1 2)\n(rule (no 1) (no 2))\n";

fn formula(body: &str) -> Formula {
    let text = format!("(book 1)\n{body}(end)\n");
    open(text.as_bytes(), &Options::paper()).expect("a book")
}

/// One call with what it answers: the reply, the table and both counts of visits.
type Row = (Call, Said, &'static [u8], u64, u64);

const WITHDRAWN: Row = (Call::Withdraw, Said::Withdrawn, &[], 0, 0);

fn expect(body: &str, rows: &[Row]) -> Store {
    let formula = formula(body);
    let mut learning = Solver::opened(formula.clone(), Options::paper());
    let mut plain = PlainRun::new(formula, Limits::PAPER);
    for (call, said, table, learning_visits, plain_visits) in rows {
        let answer = |visits| Answer { said: *said, table: table.to_vec(), visits };
        assert_eq!(learning.call(call), answer(*learning_visits), "learning, {call}\n{body}");
        assert_eq!(plain.call(call), answer(*plain_visits), "plain, {call}\n{body}");
        assert_eq!(learning.state.formula, plain.formula);
    }
    learning.state.store
}

#[test]
fn figures_of_the_readings() {
    use Call::{Card, Rule};
    use Said::{Added, Lines};
    let b_card: Row = (Card(1), Lines(0), &[0], 4, 7);
    let one_bar = Store { clauses: vec![vec![]], records: vec![2], cubes: vec![] };
    assert_eq!(expect(B, &[b_card.clone()]), one_bar);
    assert_eq!(expect(B, &[b_card.clone(), WITHDRAWN]), Store::default());
    expect(B, &[b_card.clone(), WITHDRAWN, (Card(1), Lines(1), &[0], 4, 7)]);
    let rule: Row = (Rule(vec![1]), Added, &[], 0, 0);
    expect(B, &[b_card, rule, WITHDRAWN, (Card(1), Lines(0), &[0], 1, 7)]);
    let d_card: Row = (Card(0), Lines(1), &[], 6, 6);
    expect(D, &[d_card, WITHDRAWN, (Card(0), Lines(1), &[], 1, 5)]);
}

/// A bar stored while a rule stood goes with it, though it does not rest on it; one stored before
/// stays.
#[test]
fn bars_by_the_time_they_were_stored() {
    use Call::{Card, Rule};
    use Said::{Added, Lines};
    let rule: Row = (Rule(vec![1]), Added, &[], 0, 0);
    let card: Row = (Card(1), Lines(0), &[0], 5, 5);
    let store = expect(B, &[rule.clone(), card.clone()]);
    assert_eq!((store.clauses, store.records), (vec![vec![]], vec![3]));
    expect(B, &[rule, card, WITHDRAWN, (Card(1), Lines(0), &[0], 4, 7)]);
}

/// "one of the opened book's included"; "Withdrawing from a book without rules is 32", which changes
/// nothing, and a rule can be added again.
#[test]
fn every_rule_withdrawn() {
    use Call::{Card, Rule, Withdraw};
    use Said::{Added, Lines, Refused};
    let none: Row = (Withdraw, Refused(32), &[], 0, 0);
    let line: Row = (Card(1), Lines(1), &[0], 1, 1);
    let rule: Row = (Rule(vec![1]), Added, &[], 0, 0);
    let one: Row = (Card(1), Lines(1), &[2], 3, 3);
    expect(B, &[WITHDRAWN, WITHDRAWN, none.clone(), line, rule, one, WITHDRAWN, none]);
}

#[test]
fn room_for_a_rule_again() {
    let mut solver = Solver::opened(formula("(flags 1)\n"), Options::paper());
    for _ in 0..255 {
        assert_eq!(solver.call(&Call::Rule(vec![1])).said, Said::Added);
    }
    let calls = [Call::Rule(vec![1]), Call::Withdraw, Call::Rule(vec![-1]), Call::Rule(vec![1])];
    let said: Vec<_> = solver.run(&calls).into_iter().map(|answer| answer.said).collect();
    assert_eq!(said, [Said::Refused(20), Said::Withdrawn, Said::Added, Said::Refused(20)]);
    assert_eq!(solver.state.formula.clauses[254], [-1]);
}

/// Flags 1 and 2 and so many rules, with bars and their records.
fn given(rules: usize, bars: &[(&[i16], usize)]) -> Solver {
    let mut formula = formula("(flags 1 2)\n");
    formula.clauses = vec![vec![1, 2]; rules];
    let clauses = bars.iter().map(|(bar, _)| bar.to_vec()).collect();
    let records = bars.iter().map(|(_, record)| *record).collect();
    let store = Store { clauses, records, cubes: vec![vec![1], vec![2]] };
    Solver::new(State { formula, store }, Options::paper())
}

/// "Bars with a larger record than the rules that remain are dropped": a filter, whatever the order of
/// the records. Passes and the order of the rest stay.
#[test]
fn records_in_any_order() {
    let bars: [(&[i16], usize); 6] =
        [(&[1], 3), (&[2], 1), (&[-1], 2), (&[-2], 3), (&[1, 2], 2), (&[1], 0)];
    let mut solver = given(3, &bars);
    assert_eq!(solver.call(&Call::Withdraw), Answer::new(Said::Withdrawn));
    let State { formula, store } = &solver.state;
    assert_eq!(formula.clauses.len(), 2);
    assert_eq!(store.clauses, [vec![2], vec![-1], vec![1, 2], vec![1]]);
    assert_eq!(store.records, [1, 2, 2, 0]);
    assert_eq!(store.cubes, [[1], [2]]);
    for left in [vec![vec![2], vec![1]], vec![vec![1]]] {
        assert_eq!(solver.call(&Call::Withdraw), Answer::new(Said::Withdrawn));
        assert_eq!(solver.state.store.clauses, left);
    }
    let before = solver.state.clone();
    assert_eq!(solver.call(&Call::Withdraw), Answer::new(Said::Refused(32)));
    assert_eq!(solver.state, before);
}

/// "The state check refuses a bar whose record exceeds the rules standing", at every call, and before
/// 32.
#[test]
fn records_above_the_rules_standing() {
    let calls = [
        Call::Withdraw,
        Call::Forget,
        Call::Query(Default::default()),
        Call::Card(4),
        Call::KeepCard(4),
        Call::Rule(vec![1]),
        Call::Write(100),
    ];
    for (rules, record) in [(1, 2), (0, 1), (3, 4), (3, 65_535)] {
        let mut solver = given(rules, &[(&[1], 0), (&[2], record), (&[1, 2], 0)]);
        let before = solver.state.clone();
        for call in &calls {
            let answer = solver.call(call);
            assert_eq!((answer.said, answer.visits), (Said::Refused(22), 0), "{call}");
            assert!(answer.table.iter().all(|byte| *byte == 0), "{call}");
            assert_eq!(solver.state, before);
        }
    }
    for call in &calls {
        let said = given(2, &[(&[1], 2), (&[2], 0)]).call(call).said;
        assert_ne!(said, Said::Refused(22), "{call}");
    }
}

/// A 65th bar takes the oldest's place; every bar keeps its own record.
#[test]
fn records_move_with_displacement() {
    let mut options = Options::paper();
    options.limits.entries = 2;
    let mut store = Store::default();
    for (index, record) in [7, 8, 9].into_iter().enumerate() {
        let literals = [index as i16 + 1];
        store.learn(compare::constraint::Polarity::Clause, &literals, record, &options);
        store.learn(compare::constraint::Polarity::Cube, &literals, record, &options);
    }
    assert_eq!(store.clauses, [[2], [3]]);
    assert_eq!(store.records, [8, 9]);
    assert_eq!(store.cubes, [[2], [3]]);
}
