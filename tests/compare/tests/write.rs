//! A book written back: its text, the table, and what reading the text gives.

use compare::finder::{Shape, Source};
use compare::random::Random;
use compare::write::text;
use compare::{Answer, Call, Formula, Options, Said, Solver, Subject};

fn opened(text: &str) -> Formula {
    compare::text::open(text.as_bytes(), &Options::paper()).expect("a book")
}

fn written(book: &str) -> String {
    text(&opened(book), &Options::paper())
}

#[test]
fn literals_in_place_order_and_groups_of_one_kind_on_one_line() {
    let typed = "(book 1)\n(flags 2 1)\n(exists 40)\n(exists 9)\n(forall 4)\n(exists 3)\n\
                 (rule 3 4 (no 1))\n(rule (no 3) 2)\n(rule (no 3) 2)\n(end)\n";
    let book = "(book 1)\n(flags 2 1)\n(exists 40 9)\n(forall 4)\n(exists 3)\n\
                (rule (no 1) 4 3)\n(rule 2 (no 3))\n(rule 2 (no 3))\n(end)\n";
    assert_eq!(written(typed), book);
    assert_eq!(written(book), book);
    assert_eq!(written("(book 1)\n(flags)\n(end)\n"), "(book 1)\n(flags)\n(end)\n");
}

fn into(formula: &Formula, length: usize) -> Answer {
    Solver::opened(formula.clone(), Options::paper()).call(&Call::Write(length))
}

/// The smallest book has 23 bytes.
#[test]
fn tables_of_every_length() {
    let book = "(book 1)\n(flags)\n(end)\n";
    for length in 0..=40 {
        let answer = into(&opened(book), length);
        let mut table = vec![0; length];
        if length < 23 {
            assert_eq!(answer.said, Said::Refused(31));
        } else {
            assert_eq!(answer.said, Said::Written(23));
            table[..23].copy_from_slice(book.as_bytes());
        }
        assert_eq!((answer.table, answer.visits), (table, 0));
    }
}

#[test]
fn malformed_states_are_22_in_every_table() {
    let mut random = Random::new(20_232);
    let mut seen = 0;
    for attempt in 0..4_000 {
        let case = Shape::of_attempt(attempt).case(Source::Malformed, &mut random);
        let mut solver = Solver::new(case.state.clone(), Options::with(case.limits));
        for length in [0, 22, 23, 200] {
            if case.malformed() {
                let answer = solver.call(&Call::Write(length));
                assert_eq!((answer.said, answer.table), (Said::Refused(22), vec![0; length]));
                assert_eq!(solver.state, case.state);
                seen += 1;
            }
        }
    }
    assert!(seen > 4_000, "{seen}");
}

/// "Reading the text gives the same variables, places, kinds and rules", and "two books .. give
/// equal texts exactly when they have the same flags in order, the same kinds and places, and the
/// same rules in order".
#[test]
fn read_back_and_told_apart() {
    let mut random = Random::new(20_233);
    let (mut equal, mut last) = (0, Formula::default());
    for attempt in 0..40_000 {
        let shape = Shape { variables: 2, clauses: 1, literals: 2, calls: 1 };
        let formula = match attempt % 4 {
            0 => Shape::of_attempt(attempt).formula(&mut random),
            _ => shape.formula(&mut random),
        };
        let (here, before) = (text(&formula, &Options::paper()), text(&last, &Options::paper()));
        assert_eq!(opened(&here), formula);
        assert_eq!(here == before, formula == last, "{here}{before}");
        equal += usize::from(formula == last);
        last = formula;
    }
    assert!(equal > 100, "{equal}");
}
